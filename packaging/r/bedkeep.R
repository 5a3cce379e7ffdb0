# bedkeep from R: tracks are GRanges.
#
#   out <- bedkeep_apply(genes, "replace\tchr1\t100\t200\tgeneA\tchr1\t100\t250\tgeneA")
#   out$track      the corrected track, a GRanges
#   out$refused    a data frame of the lines that were refused: line, reason, text
#   bedkeep_view(genes, "merge -d 10")                the rows of a view
#   bedkeep_view(genes, "intersect -u", second = mask)
#
# Positions of a GRanges count from 1, and ends are included; those of a script are those of BED: start counts from 0, and end is
# not included. Lengths come from seqlengths(genes), all of which have to be known. Of mcols(genes) there are `name` (or the names of
# the ranges) and `score`; others have no column in BED, and are refused. A script is lines, or the path of a file.
#
# It needs GenomicRanges, and bedkeep and bedkeep-desk on the path; BEDKEEP may name the first one.
suppressPackageStartupMessages(library(GenomicRanges))

bedkeep_apply <- function(genes, corrections) {
  folder <- .bedkeep_folder(genes)
  on.exit(unlink(folder, recursive = TRUE))
  at <- function(name) file.path(folder, name)
  if (length(corrections) == 1 && file.exists(corrections)) corrections <- readLines(corrections)
  writeLines(as.character(corrections), at("corrections"))
  corrections <- readLines(at("corrections"))
  .bedkeep_run("bedkeep-desk", c("apply", at("sizes"), at("bed"), at("corrections"), "-o", at("out"), "--refused", at("refused")), at, 1)
  said <- regmatches(lines <- readLines(at("refused")), regexec("^.*: line ([0-9]+): (.*)$", lines))
  number <- as.integer(vapply(said, `[`, "", 2))
  text <- corrections[number]
  for (line in strsplit(setdiff(corrections, text), "\t", fixed = TRUE))
    if (length(line) == 3 && line[1] == "resize") seqlengths(genes)[line[2]] <- as.integer(line[3])
  list(track = .bedkeep_ranges(at("out"), genes, .bedkeep_fields(genes)),
       refused = data.frame(line = number, reason = vapply(said, `[`, "", 3), text = as.character(text)))
}

bedkeep_view <- function(genes, view, second = NULL) {
  folder <- .bedkeep_folder(genes)
  on.exit(unlink(folder, recursive = TRUE))
  at <- function(name) file.path(folder, name)
  words <- strsplit(trimws(view), " +")[[1]]
  if ("-wb" %in% words || words[1] %in% c("getfasta", "session")) stop("bedkeep_view has no ", view)
  files <- if (is.null(second)) c("-i", at("bed")) else c("-a", at("bed"), "-b", at("second"))
  if (!is.null(second)) .bedkeep_write(second, at("second"))
  .bedkeep_run(Sys.getenv("BEDKEEP", "bedkeep"), c(words[1], "-g", at("sizes"), files, words[-1]), at, 0)
  fields <- if (words[1] %in% c("merge", "complement", "genomecov")) .BEDKEEP[1:3] else .bedkeep_fields(genes)
  if (words[1] == "genomecov" && "-d" %in% words) fields <- c("chromosome", "position")
  .bedkeep_ranges(at("out"), genes, c(fields, .bedkeep_added(words)))
}

# What the functions above are made of

.BEDKEEP <- c("chromosome", "start", "end", "name", "score", "strand")

# The columns of a track as a BED file: as many as the last one that it has.
.bedkeep_fields <- function(genes) {
  have <- c(name = .bedkeep_has(genes, "name") || !is.null(names(genes)), score = .bedkeep_has(genes, "score"), strand = any(strand(genes) != "*"))
  .BEDKEEP[seq_len(max(3, which(have) + 3))]
}

.bedkeep_has <- function(genes, name) name %in% names(mcols(genes))

# The names of the columns that a view adds to those of its intervals or records.
.bedkeep_added <- function(words) {
  after <- function(option) strsplit(words[match(option, words) + 1], ",")[[1]]
  if (words[1] == "genomecov") return("depth")
  if (words[1] == "cluster") return("block")
  if (words[1] == "intersect" && "-c" %in% words) return("hits")
  if (words[1] != "merge" || !"-c" %in% words) return(character())
  paste(if ("-o" %in% words) after("-o") else "sum", after("-c"), sep = "_")
}

# A folder with the genome file and the BED file of a track.
.bedkeep_folder <- function(genes) {
  lengths <- seqlengths(genes)
  if (anyNA(lengths)) stop("seqlengths aren't known: ", paste(names(lengths)[is.na(lengths)], collapse = ", "))
  folder <- tempfile("bedkeep-")
  dir.create(folder)
  writeLines(paste(names(lengths), lengths, sep = "\t"), file.path(folder, "sizes"))
  .bedkeep_write(genes, file.path(folder, "bed"))
  folder
}

.bedkeep_write <- function(genes, path) {
  others <- setdiff(names(mcols(genes)), c("name", "score"))
  if (length(others)) stop("these columns of mcols have no place in BED: ", paste(others, collapse = ", "))
  name <- if (.bedkeep_has(genes, "name")) mcols(genes)$name else if (is.null(names(genes))) "." else names(genes)
  score <- if (.bedkeep_has(genes, "score")) mcols(genes)$score else "."
  columns <- list(as.character(seqnames(genes)), start(genes) - 1L, end(genes), .bedkeep_text(name), .bedkeep_text(score),
                  chartr("*", ".", as.character(strand(genes))))
  lines <- if (length(genes)) do.call(paste, c(columns[seq_along(.bedkeep_fields(genes))], sep = "\t")) else character()
  writeLines(lines, path)
}

# Values as text: whole numbers without an exponent, and what is missing as a dot.
.bedkeep_text <- function(values) {
  text <- as.character(values)
  if (is.double(values)) {
    whole <- !is.na(values) & values == round(values) & abs(values) < 1e15
    text[whole] <- sprintf("%.0f", values[whole])
  }
  text[is.na(text) | text == ""] <- "."
  if (any(grepl("[\t\n]", text))) stop("a TAB or the end of a line in a name or a score")
  text
}

# Runs a program, and stops with what it says if its status is greater than that of refused lines.
.bedkeep_run <- function(program, words, at, refused) {
  if (!nzchar(Sys.which(program))) stop(program, " is not on the path")
  status <- suppressWarnings(system2(program, shQuote(words), stdout = if (refused) FALSE else at("out"), stderr = at("err")))
  if (status > refused || !file.exists(at("out"))) stop(paste(readLines(at("err")), collapse = "\n"), call. = FALSE)
}

.bedkeep_ranges <- function(path, genes, fields) {
  lines <- readLines(path)
  if (!length(lines)) return(GRanges(seqinfo = seqinfo(genes)))
  table <- read.delim(text = lines, header = FALSE, quote = "", comment.char = "", colClasses = "character", col.names = fields)
  start <- as.integer(if (is.null(table$position)) table$start else table$position)
  ranges <- if (is.null(table$position)) IRanges(start + 1L, as.integer(table$end)) else IRanges(start, start)
  strand <- if (is.null(table$strand)) "*" else chartr(".", "*", table$strand)
  found <- GRanges(table$chromosome, ranges, strand, seqinfo = seqinfo(genes))
  for (field in setdiff(fields, c(.BEDKEEP[c(1:3, 6)], "position")))
    mcols(found)[[field]] <- if (field == "name") table[[field]] else type.convert(table[[field]], as.is = TRUE, na.strings = ".")
  found
}
