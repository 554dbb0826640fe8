% Document 01's case 1: the bill of e leaves open whether it was the matinee or the evening. When was it?
cnf(bill, axiom, ( at(e, mat) | at(e, eve) )).
cnf(when, negated_conjecture, ~ at(e, X)).
