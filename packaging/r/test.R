# Tests bedkeep.R: Rscript test.R, in this folder, with bedkeep and bedkeep-desk on the path. Silent if all holds.
source("bedkeep.R")

genes <- GRanges("chr1", IRanges(c(101, 301), c(200, 400)), name = c("geneA", "geneB"), seqinfo = Seqinfo(c("chr1", "chr2"), c(1000, 500)))

# positions count from 1 here, and from 0 in the script
out <- bedkeep_apply(genes, c("# geneA ends later\n", "replace\tchr1\t100\t200\tgeneA\tchr1\t100\t250\tgeneA", "add\tchr1\t389\t500\tgeneC",
                              "remove\tchr1\t300\t401\tgeneB", "resize\tchr2\t600"))
stopifnot(identical(start(out$track), c(101L, 301L, 390L)), identical(end(out$track), c(250L, 400L, 500L)),
          identical(out$track$name, c("geneA", "geneB", "geneC")), identical(seqlengths(out$track), c(chr1 = 1000L, chr2 = 600L)),
          identical(out$refused, data.frame(line = 5L, reason = "no such record: chr1 300 401 geneB", text = "remove\tchr1\t300\t401\tgeneB")))
stopifnot(nrow(bedkeep_apply(genes, character())$refused) == 0, identical(bedkeep_apply(genes, character())$track, genes))

# scores and strands; a whole number has no exponent
scored <- GRanges("chr1", IRanges(1, 1000), "-", score = 100000, seqinfo = seqinfo(genes))
kept <- bedkeep_apply(scored, "remove\tchr1\t0\t1000\t.\t100000\t+")
stopifnot(kept$track$score == 100000, as.character(strand(kept$track)) == "-", kept$refused$line == 1L)

# what can't be used is said
fails <- function(call, said) stopifnot(grepl(said, tryCatch(call, error = conditionMessage), fixed = TRUE))
fails(bedkeep_view(GRanges("chr1:1-10"), "merge"), "seqlengths aren't known: chr1")
fails(bedkeep_view(genes, "merge -d x"), "bedkeep: ")
mcols(genes)$source <- "a"
fails(bedkeep_apply(genes, character()), "no place in BED: source")
genes$source <- NULL

# views, beside what GenomicRanges makes of the same ranges
merged <- bedkeep_view(genes, "merge -d 100 -c 4,4 -o collapse,count")
stopifnot(identical(granges(merged), GRanges("chr1:101-400", seqinfo = seqinfo(genes))), merged$collapse_4 == "geneA,geneB", merged$count_4 == 2)
stopifnot(identical(bedkeep_view(genes, "cluster")$block, 1:2), identical(bedkeep_view(genes, "intersect -c", genes[1])$hits, c(1L, 0L)))
stopifnot(identical(granges(bedkeep_view(genes, "genomecov -d"))[101:102], GRanges(c("chr1:101", "chr1:102"), seqinfo = seqinfo(genes))))
set.seed(1)
from <- sample(5000, 300, TRUE)
many <- GRanges(sample(c("a", "b", "c"), 300, TRUE), IRanges(from, pmin(from + sample(200, 300, TRUE), 5000)),
                seqinfo = Seqinfo(c("a", "b", "c"), rep(5000, 3)))
stopifnot(identical(bedkeep_view(many, "merge"), reduce(many)))
between <- gaps(many)
stopifnot(identical(ranges(bedkeep_view(many, "complement")), ranges(between[strand(between) == "*"])))
