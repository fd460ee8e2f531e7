# Completion in fish for the program digests and its tools. Made by tools/shells.py: edit what that reads.

# Whether the words so far are a tool's, or any tool's, and options may follow; and for `checking`, that they ask for
# --check, or for `writing` that they don't.
function __digests_takes -a wanted state
    set -l words (commandline -opc)
    set -l tool (string replace -r '.*/' '' -- $words[1])
    set -e words[1]
    if test "$tool" = digests
        set tool $words[1]
        set -e words[1]
    end
    test -n "$tool"; and contains -- "$wanted" any "$tool"; and not contains -- -- $words; or return 1
    set -l checks no
    string match -qr '^(@CHECK@|-[^-l]*c.*)$' -- $words; and set checks yes
    switch "$state"
        case checking
            test $checks = yes
        case writing
            test $checks = no -a "$tool" != anysum
        case '*'
            true
    end
end

function __digests_wants_tool
    test (count (commandline -opc)) -eq 1
end

# This file may be read once for each of these names.
for name in digests @NAMES@
    complete -c $name -e
    complete -c $name -n '__digests_takes any; and string match -q -- "--*=*" (commandline -ct)' -f
@FISH@
end
complete -c digests -n __digests_wants_tool -f -a '@TOOLS@'
