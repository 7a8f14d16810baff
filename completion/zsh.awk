# What completion/zsh.in leaves open: the tools, and each tool's options as zshcompsys(1),
# _arguments, takes them.
function described(text) {
    gsub(/\\/, "\\\\", text)
    gsub(/\[/, "\\[", text)
    gsub(/]/, "\\]", text)
    gsub(/:/, "\\:", text)
    return text
}
function action(name, of) {
    if (of == "folders") return ":" name ":_directories"
    if (of == "files") return ":" name ":_files"
    if (of == "users") return ":" name ":_accounts_names passwd"
    if (of == "groups") return ":" name ":_accounts_names group"
    if (of == "user_list") return ":" name ":_accounts_list passwd"
    if (of == "group_list") return ":" name ":_accounts_list group"
    return ":" name ":"
}
# One spelling of an option. Settings and ranges of IDs may be given several times.
function spec(spelling, both, several) {
    several = $3 == "KEY=VALUE" || $3 == "FIRST-LAST"
    return quoted((several ? "*" : "(" both ")") spelling "[" described($4) "]" \
        ($3 ? action($3, kind($3)) : ""))
}
function add(line) {
    cases = cases " \\\n        " line
}
$1 == "tool" {
    if (tool) cases = cases "\n    ;;\n"
    tool = $2
    tools = tools "    " quoted(tool ":" $3) "\n"
    cases = cases "(" tool ")\n    _arguments -s -S"
    add(quoted("(- *)--help[tell the options, rules and statuses]"))
    next
}
$1 == "operand" { add(quoted("1" action($2, operand_kind(tool, $2)))); next }
{
    both = "-" $1 ($2 ? " --" $2 : "")
    add(spec("-" $1 ($3 ? "+" : ""), both))
    if ($2) add(spec("--" $2 ($3 ? "=" : ""), both))
}
END {
    while ((getline line <template) > 0) {
        if (line == "@tools@") printf "%s", tools
        else if (line == "@options@") print cases "\n    ;;"
        else print line
    }
}
