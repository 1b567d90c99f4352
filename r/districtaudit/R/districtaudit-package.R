#' Audits districting plans with the program district-audit
#'
#' The functions prepare a map ([audit_prepare()]), try walks without a score ([audit_pilot()]), call
#' the installed program ([audit_check()], [audit_run()], [audit_over_limits()], [audit_plans()],
#' [audit_trace()]), and read what it prints. They compute no test themselves: every number of a
#' report is the program's. [audit_to_files()] writes reports with a manifest, and says how to make an
#' exhibit of them.
#'
#' @section The program:
#' It is found by the option `districtaudit.program`, then by the environment variable
#' `DISTRICT_AUDIT`, then as `district-audit` in the search path.
#'
#' @section Conditions:
#' Errors have the class `AuditError` and one of these classes, with the fields `status` and `line`
#' (the program's line on standard error): `WordsRefused` (1), `GraphRefused` (2), `MemoryRefused`
#' (3), `ReadFault` (4), `WriteFault` (5), `CheckpointUnreadable` (6), `WorkLeft` (7),
#' `CheckpointRefused` (8), `SaveFault` (9), and `ProgramFailed` for any other end. What is refused
#' before a call is of class `PrepareRefused` (the map) or `ArgumentRefused`; `ReportRefused`,
#' `ManifestRefused` and `NotProved` are of texts that are no report, no manifest, or made by a program
#' without a proof. The field `labels` has
#' the labels of the units and districts that the line names by numbers.
#'
#' Warnings have the class `MapWarning` and one of these: `NoPeople`, `DistrictWithoutPeople`,
#' `DistrictWithoutVotes`, `MoreVotesThanPeople`, `SharesNotCounts`, `PercentagesNotCounts`,
#' `ColumnRounded`, `DistrictRounded`, `LengthsRounded`, `SmallGroupShare`, `NoCompactnessLimit`,
#' `LimitAtOwnNumber`, `BordersNotShared`, `CoordinatesInDegrees`, `AllUnitsFrozen`, `DistrictFrozen`,
#' `DistrictCannotChange`, `FrozenWalk`. They are the Python package's, which has two more:
#' `GraphChanged`, since its calls may prepare a map, and `HeadNotCompared`, of a trace in a file.
#'
#' @keywords internal
"_PACKAGE"
