# Rows of runs in R, with nothing but R itself: Rscript look.R ROWS.csv FIGURE PICTURE.png
#
# Means with their 95 percent intervals at each point, the difference of the last point to the first by pairs of runs, and a picture.
words <- commandArgs(TRUE)
figure <- words[2]
rows <- read.csv(words[1], check.names = FALSE, colClasses = "character")  # names as they are, with blanks
rows <- unique(rows[rows$model != "model", ])                              # headers of later files, rows that came twice
done <- rows[rows$end == "Done", ]
done[[figure]] <- as.numeric(done[[figure]])
cat(nrow(done), "of", nrow(rows), "runs came to their count\n")

points <- unique(done$point)
half <- function(x) qt(0.975, length(x) - 1) * sd(x) / sqrt(length(x))
of <- function(point) done[done$point == point, figure]
means <- sapply(points, function(p) mean(of(p)))
halves <- sapply(points, function(p) half(of(p)))
print(round(data.frame(runs = sapply(points, function(p) length(of(p))), mean = means, half = halves), 3))

# Run r has the same seeds at each point, so differences are taken run by run.
pairs <- merge(done[done$point == points[1], c("run", figure)], done[done$point == tail(points, 1), c("run", figure)], by = "run")
change <- pairs[[3]] - pairs[[2]]
cat(tail(points, 1), "less", points[1], ":", round(mean(change), 3), "+-", round(half(change), 3), "\n")

png(words[3], width = 640, height = 480)
at <- seq_along(points)
plot(at, means, pch = 19, xaxt = "n", xlab = "", ylab = figure, xlim = c(0.5, length(at) + 0.5), ylim = c(0, max(means + halves)))
axis(1, at, points)
suppressWarnings(arrows(at, means - halves, at, means + halves, angle = 90, code = 3, length = 0.05))  # an interval of 0 has no arrow
invisible(dev.off())
