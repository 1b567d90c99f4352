# Frames of reports whose numbers were worked by hand.

# The example of the README, with its pair of walks: 2 + 9 - 1 of 2 * 100001 - 1 plans, and
# 10 / 100001 rounded up at nine places.
README <- "district-audit 1
key 2b7e151628aed2a6abf7158809cf4f3c762e7160f38b4da56a784d9045190cfe
units 300 edges 563 districts 6
population 30000 slack 1000 low 4500 high 5500
walks 2 steps 100000 ends 99 hub-steps 10000
walk 0 moved 5820 gap high start -600/60000 count 80091 of 100001 bound 1.265623950
walk 0 moved 5820 cut-edges low start 125/1 count 2 of 100001 bound 0.006324524
walk 1 moved 5932 gap high start -600/60000 count 67565 of 100001 bound 1.162448488
walk 1 moved 5932 cut-edges low start 125/1 count 9 of 100001 bound 0.013416341
pair 0 1 cut-edges low start 125/1 count 10 of 200001 bound 0.000100000
ends gap high start -600/60000 rank 69 of 100 p 0.690000000
ends cut-edges low start 125/1 rank 1 of 100 p 0.010000000
end
"

test_that("README's example is read", {
  tests <- as.data.frame(audit_report(README))
  expect_equal(tests$test, c(rep("walk", 4), "pair", "ends", "ends"))
  expect_equal(tests$ask[c(1, 2)], c("gap:high", "cut-edges:low"))
  expect_equal(tests$start, c(-0.01, 125, -0.01, 125, 125, -0.01, 125))
  expect_equal(tests$start_numerator[1:2], c(-600, 125))
  expect_equal(tests$start_denominator[1:2], c(60000, 1))
  expect_equal(tests$walk, c(0, 0, 1, 1, 0, NA, NA))
  expect_equal(tests$second_walk, c(NA, NA, NA, NA, 1, NA, NA))
  expect_equal(tests$moved, c(5820, 5820, 5932, 5932, NA, NA, NA))
  expect_equal(tests$in_tail, c(80091, 2, 67565, 9, 10, NA, NA))
  expect_equal(tests$visited, c(rep(100001, 4), 200001, NA, NA))
  expect_equal(tests$bound[5], 0.0001)
  expect_equal(tests$share[2], 2 / 100001)
  expect_equal(tests$rank, c(rep(NA, 5), 69, 1))
  expect_equal(tests$of, c(rep(NA, 5), 100, 100))
  expect_equal(tests$p, c(rep(NA, 5), 0.69, 0.01))
})

test_that("the examples of GUIDE on serial tests and early stopping are read", {
  text <- "district-audit 1
stop 20
walk 0 moved 30 gap low start -1/26 count 59 of 101 bound 1.080887058
stop gap low start -1/26 place 35 value 20/35 p 0.571428572
serial gap low start -1/26 place 48 rank 89 of 128 p 0.695312500
end
"
  tests <- as.data.frame(audit_report(text))
  expect_equal(tests$test, c("walk", "stop", "serial"))
  expect_equal(tests$stopped_after, c(NA, 35, NA))
  expect_equal(tests$start_place, c(NA, NA, 48))
  expect_equal(tests$rank, c(NA, 20, 89))
  expect_equal(tests$of, c(NA, 35, 128))
  expect_equal(tests$p, c(NA, 0.571428572, 0.6953125))
})

test_that("the histogram of seats is read", {
  text <- "district-audit 2\nshift 0 0 1 2 90 7 1 0 0\nend\n"
  shift <- audit_report(text)$shift
  expect_equal(unname(shift), c(0, 0, 1, 2, 90, 7, 1, 0, 0))
  expect_equal(names(shift)[c(1, 5)], c("-4 or below", "0"))
})

test_that("a text that is no report is refused with its line", {
  bad <- sub("count 2 of", "count two of", README, fixed = TRUE)
  expect_error(audit_report(bad), "line 7 has no form of a report", class = "ReportRefused")
  expect_error(audit_report(sub("end\n$", "", README)), class = "ReportRefused")
  expect_error(audit_report(sub("\n$", "", README)), class = "ReportRefused")
  expect_error(audit_report("plan-check 1\nend\n"), class = "ReportRefused")
})

test_that("a key is the SHA-256 of the text's bytes in UTF-8", {
  skip_if_not_installed("digest")
  # The SHA-256 of "abc" in FIPS 180-2; of the second text by sha256sum.
  expect_equal(audit_key("abc"), "ba7816bf8f01cfea414140de5dae2223b00361a396177a9cb410ff61f20015ad")
  expect_equal(audit_key("\u00e9"), "4a99557e4033c3539de2eb65472017cad5f9557f7a0625a09f1c3f6e2ba69c4c")
  expect_error(audit_key(c("a", "b")), class = "ArgumentRefused")
})

test_that("autoplot has a point for each test", {
  skip_if_not_installed("ggplot2")
  plot <- ggplot2::autoplot(audit_report(README))
  drawn <- ggplot2::ggplot_build(plot)$data[[2]]
  expect_equal(10^drawn$x, c(1, 0.006324524, 1, 0.013416341, 0.0001, 0.69, 0.01))
})
