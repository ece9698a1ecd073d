# Read by ./run: the lines of a session, and behind them a line with the status of its run. Says how many lines were answered ?, where and why the first
# ones (R145 to R150), and whether lines end with a carriage return; then ends with the status.

# two lines are held back: the last one is the status, and the one before it is what follows the last line end
NR > 2 { look(held[NR % 2]) }
{ held[NR % 2] = $0 }

END {
    status = held[NR % 2]
    rest = held[(NR - 1) % 2]
    if (rest != "" && status == 0) look(rest)
    if (asked) printf "run: %d of %d lines answered ?; %s:\n%s", asked, lines, (asked > shown ? "the first" : "which, and why"), reasons
    if (returns) printf "run: %d of %d lines with a carriage return at the end, which counts as a byte of the line; the first is line %d\n", returns, lines, first
    exit status
}

function look(line, why) {
    lines++
    if (line ~ /\r$/ && !returns++) first = lines
    why = reason(line)
    if (why == "") return
    asked++
    if (shown < 5) { shown++; reasons = reasons "run: line " lines ": " why "\n" }
}

# why the line is answered ?; nothing where it is not
function reason(line, field, n) {
    if (length(line) > 8192) return "it has more than 8192 bytes"
    if (line == "") return "it is empty"
    if (line ~ /^ / || line ~ / $/ || line ~ /  /) return "a space at its front or end, or two in a row"
    n = split(line, field, "[ ]")
    if (field[1] == "mount") return form(n, 5, "mount PATH TAG ROOT MAX", number("TAG", field[3], "4294967295") number("ROOT", field[4], "18446744073709551615") number("MAX", field[5], "18446744073709551615"))
    if (field[1] == "umount") return form(n, 2, "umount PATH", "")
    if (field[1] == "walk") return form(n, 2, "walk PATH", "")
    if (field[1] == "look") return form(n, 3, "look NODE NAME", number("NODE", field[2], "18446744073709551615"))
    return "it begins with none of mount, umount, walk and look"
}

function form(n, want, said, numbers) {
    if (n != want) return "its form is " said
    sub(/; $/, "", numbers)
    return numbers
}

# what is wrong with a number, with "; " behind it
function number(name, word, most) {
    if (word !~ /^[0-9]+$/) return name " is not a decimal number; "
    sub(/^0+/, "", word)
    if (length(word) > length(most) || (length(word) == length(most) && word "" > most "")) return name " is above " most "; "
    return ""
}
