# Two commands for everybody; scripts/try.sh says more, and runs without make: scripts/try.sh audit.
.PHONY: audit test
audit:
	@scripts/try.sh audit
test:
	@scripts/try.sh test
