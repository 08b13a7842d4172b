cat tests/cases/own_help/out
