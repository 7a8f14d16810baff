# What completion/fish.in leaves open: the tools and their options, as complete(1) takes them.
function action(of) {
    if (of == "folders") return " -a '(__fish_complete_directories (commandline -ct))'"
    if (of == "users") return " -a '(__accounts_names passwd)'"
    if (of == "groups") return " -a '(__accounts_names group)'"
    if (of == "user_list") return " -a '(__accounts_list passwd)'"
    if (of == "group_list") return " -a '(__accounts_list group)'"
    return ""
}
function spelled(text) {
    gsub(/\\/, "\\\\", text)
    gsub(/'/, "\\'", text)
    return "'" text "'"
}
function add(line) {
    lines = lines "complete -c accounts -n " line "\n"
}
$1 == "tool" {
    tool = $2
    seen = "'__fish_seen_subcommand_from " tool "'"
    lines = lines "\n"
    add("__accounts_needs_tool -a " tool " -d " spelled($3))
    add(seen " -l help -d 'tell the options, rules and statuses'")
    next
}
$1 == "operand" {
    of = operand_kind(tool, $2)
    names = of == "files" ? " -F" : action(of)
    if (names) add(seen names)
    next
}
{
    value = ""
    if ($3) value = kind($3) == "files" ? " -r -F" : " -x" action(kind($3))
    add(seen " -s " $1 ($2 ? " -l " $2 : "") value " -d " spelled($4))
}
END {
    while ((getline line <template) > 0)
        if (line == "@options@") printf "%s", lines; else print line
}
