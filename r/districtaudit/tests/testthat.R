library(testthat)
library(districtaudit)

test_check("districtaudit")
