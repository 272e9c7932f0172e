# Draws the library's rate by the length of the message, as SVG. Each line of input is a point, the shortest message of a line first:
# `seal|open instructions|time MESSAGE_BYTES THOUSANDTHS`, where 1000 is plain Rust's rate.

BEGIN {
    left = 64; right = 560; top = 84; bottom = 304
    # Sealing and opening cost about the same: the one is drawn broad, and the other thin upon it.
    colour["seal"] = "#7fb2e5"; width["seal"] = 5
    colour["open"] = "#a63c06"; width["open"] = 1.5
    dashes["instructions"] = "none"; dashes["time"] = "8 5"
}

{
    series = $1 " " $2
    if (!(series in points)) names[++last] = series
    points[series]++
    bytes[series, points[series]] = $3
    rate[series, points[series]] = $4 / 1000
    if ($4 / 1000 > highest) highest = $4 / 1000
}

END {
    shortest = bytes[series, 1]
    longest = bytes[series, points[series]]
    highest = highest < 1.2 ? 1.25 : int(4 * highest + 1) / 4
    print "<svg xmlns=\"http://www.w3.org/2000/svg\" width=\"640\" height=\"360\" viewBox=\"0 0 640 360\""
    print "    font-family=\"sans-serif\" font-size=\"12\" fill=\"#222222\">"
    print "<rect width=\"640\" height=\"360\" fill=\"#ffffff\"/>"
    print "<text x=\"" left "\" y=\"26\" font-size=\"15\" font-weight=\"bold\">Rate of the library against plain Rust</text>"
    draw_axes()
    draw_level(1, "plain Rust")
    draw_level(0.5, "asked")
    for (i = 1; i <= last; i++) draw_series(names[i])
    draw_legend()
    print "</svg>"
}

function x_of(length_) { return left + (right - left) * log(length_ / shortest) / log(longest / shortest) }
function y_of(rate_) { return bottom - (bottom - top) * rate_ / highest }

function line(x1, y1, x2, y2, style) {
    printf "<line x1=\"%.1f\" y1=\"%.1f\" x2=\"%.1f\" y2=\"%.1f\" %s/>\n", x1, y1, x2, y2, style
}

function text(x, y, anchor, words) {
    printf "<text x=\"%.1f\" y=\"%.1f\" text-anchor=\"%s\">%s</text>\n", x, y, anchor, words
}

function draw_axes(    value, i, x) {
    for (value = 0; value <= highest; value += 0.25) {
        line(left, y_of(value), right, y_of(value), "stroke=\"#e0e0e0\"")
        text(left - 8, y_of(value) + 4, "end", sprintf("%.2f", value))
    }
    for (i = 1; i <= points[series]; i++) {
        x = x_of(bytes[series, i])
        line(x, bottom, x, bottom + 5, "stroke=\"#222222\"")
        text(x, bottom + 20, "middle", bytes[series, i])
    }
    line(left, bottom, right, bottom, "stroke=\"#222222\"")
    text((left + right) / 2, 346, "middle", "bytes of the message (key of 16 bytes, parallel form)")
    print "<text transform=\"translate(18 " (top + bottom) / 2 ") rotate(-90)\" text-anchor=\"middle\">rate (plain Rust is 1)</text>"
}

function draw_level(value, words) {
    line(left, y_of(value), right, y_of(value), "stroke=\"#222222\" stroke-dasharray=\"2 3\"")
    text(right + 8, y_of(value) + 4, "start", words)
}

function style_of(name,    parts) {
    split(name, parts, " ")
    return sprintf("stroke=\"%s\" stroke-width=\"%s\" stroke-dasharray=\"%s\"", colour[parts[1]], width[parts[1]], dashes[parts[2]])
}

function draw_series(name,    i, path) {
    for (i = 1; i <= points[name]; i++) path = path sprintf(" %.1f,%.1f", x_of(bytes[name, i]), y_of(rate[name, i]))
    printf "<polyline points=\"%s\" fill=\"none\" %s/>\n", substr(path, 2), style_of(name)
}

function draw_legend(    i, x, y, words) {
    for (i = 1; i <= last; i++) {
        x = left + 190 * ((i - 1) % 2)
        y = 46 + 18 * int((i - 1) / 2)
        words = names[i]
        sub(" ", ", by ", words)
        line(x, y, x + 32, y, style_of(names[i]))
        text(x + 40, y + 4, "start", words)
    }
    if (!("seal time" in points)) text(left, 68, "start", "by instructions alone: time is measured on x86-64")
}
