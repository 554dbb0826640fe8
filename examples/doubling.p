% A rule that doubles its term at every use. A proof may use it 31 times; the literals are then far longer than anyone can read, and are shown cut.
cnf(doubled, axiom, ( bill(Sheet) | ~ bill(bound(Sheet, Sheet)) )).
cnf(any, axiom, bill(Volume)).
cnf(first, negated_conjecture, ~ bill(sheet)).
