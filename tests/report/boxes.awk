# Reads the words of a PDF with their boxes (pdftotext -bbox), in points: each sheet is A4, each word lies within what
# printers reach and within the margins at both sides, no two words lie over each other, and nothing is shrunk, as a browser
# does with what is too wide. `sheets` is how many there are, `heading` the height that the largest letters should have.

function number(name) {
  match($0, name "=\"[-0-9.]+")
  return substr($0, RSTART + length(name) + 2, RLENGTH - length(name) - 2) + 0
}

function fault(what) {
  if (faults++ < 5) print "sheet " sheet ": " what ": " $0
}

/<page / {
  sheet++
  split("", lines)
  split("", words)
  width = number("width")
  height = number("height")
  if (width < 594 || width > 596 || height < 841 || height > 843) fault("not A4")
}

/<word / {
  left = number("xMin"); right = number("xMax"); top = number("yMin"); bottom = number("yMax")
  if (left < SIDE || right > width - SIDE || top < EDGE || bottom > height - EDGE)
    fault("beside the sheet's margins")
  if (bottom - top > largest) largest = bottom - top
  # Words whose middles are within two points are in one heap or the next.
  heap = int((top + bottom) / 4)
  for (other = heap - 1; other <= heap + 1; other++)
    for (place = 0; place < lines[other] + 0; place++) {
      split(words[other, place], box, " ")
      if (left < box[2] - 1 && right > box[1] + 1 && top < box[4] - 2 && bottom > box[3] + 2)
        fault("over another word")
    }
  words[heap, lines[heap]++ + 0] = left " " right " " top " " bottom
  count++
}

BEGIN { SIDE = 31; EDGE = 14 }

END {
  if (sheet != sheets || count == 0) {
    print "sheets " sheet ", words " count + 0
    faults++
  }
  # A word's box is higher than its letters by a tenth or more.
  if (largest < 1.05 * heading) {
    print "shrunk: the largest word is " largest " high, its letters should be " heading
    faults++
  }
  exit faults > 0
}
