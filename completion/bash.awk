# What completion/bash.in leaves open: which option has which kind of value, and each tool's
# options.
function spelled(tool) {
    return tool ":-" $1 ($2 ? " | " tool ":--" $2 : "")
}
$1 == "tool" { tool = $2; tools = tools (tools ? " " : "") tool; next }
$1 == "operand" { operands[tool] = operand_kind(tool, $2); next }
{
    options[tool] = options[tool] (options[tool] ? " " : "") "-" $1 ($2 ? " --" $2 : "")
    if ($3) values = values "    " spelled(tool) ") kind=" kind($3) " ;;\n"
}
END {
    count = split(tools, names, " ")
    for (place = 1; place <= count; place++) {
        tool = names[place]
        cases = cases "    " tool ")\n        options=" quoted(options[tool]) "\n        operand=" \
            (tool in operands ? operands[tool] : "anything") "\n        ;;\n"
    }
    while ((getline line <template) > 0) {
        if (line == "@values@") printf "%s", values
        else if (line == "@options@") printf "%s", cases
        else { sub(/@tools@/, tools, line); print line }
    }
}
