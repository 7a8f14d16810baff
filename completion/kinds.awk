# What may stand as the value of an option or as an operand, by its name in the help text: folders,
# files, users or groups of the image, several of these with commas between, or anything.
function kind(name) {
    if (name ~ /^(DIR|BASE_DIR|HOME_DIR)$/) return "folders"
    if (name ~ /^(SHELL|FILE)$/) return "files"
    if (name ~ /^(USER|LOGIN|NAME)$/) return "users"
    if (name == "USERS") return "user_list"
    if (name == "GROUP") return "groups"
    if (name == "GROUPS") return "group_list"
    return "anything"
}

# The operand of a tool that adds is a new name.
function operand_kind(tool, name) {
    return tool ~ /add$/ ? "anything" : kind(name)
}

# A text as one word of a shell.
function quoted(text) {
    gsub(/'/, "'\\''", text)
    return "'" text "'"
}
