# Segment lists as data frames, in the folder of emu.store:
#   source("rows.R")
#   segments <- emu_ask("Phonetic == m")
# The columns have the names of emuR's query() where it has them: times in milliseconds, positions from 1. A refused query stops.
# It needs the package jsonlite.
emu_ask <- function(eql, time = NULL, program = "emu") {
  words <- c("ask", eql, if (!is.null(time)) paste0("--time=", time))
  said <- suppressWarnings(system2(program, shQuote(words), stdout = TRUE))
  reply <- if (length(said) > 0) jsonlite::fromJSON(said)
  if (is.null(reply$segments)) {
    stop("emu gave no rows, status ", attr(said, "status"), ": ", said)
  }
  rows <- reply$segments
  if (length(rows) == 0) {
    # No row: as many columns as with rows.
    rows <- list(labels = character(), session = character(), bundle = character(), level = character(), attribute = character(),
      start = numeric(), end = numeric(), startItem = integer(), endItem = integer(), startPos = numeric(), endPos = numeric(),
      sampleStart = integer(), sampleEnd = integer(), sampleRate = integer())
  }
  data.frame(
    labels = rows$labels, start = rows$start / 1000, end = rows$end / 1000, session = rows$session, bundle = rows$bundle,
    start_item_id = rows$startItem, end_item_id = rows$endItem, level = rows$level, attribute = rows$attribute,
    start_item_seq_idx = rows$startPos + 1, end_item_seq_idx = rows$endPos + 1,
    sample_start = rows$sampleStart, sample_end = rows$sampleEnd, sample_rate = rows$sampleRate, stringsAsFactors = FALSE)
}
