cat tests/cases/explain_cut/out
