% A bill with a slip of the pen: the clause of the third has a parenthesis too many.
cnf(bill_1, axiom, on(may1, evening)).
cnf(bill_3, axiom, ( on(may3, matinee)) | on(may3, evening) )).
cnf(when, negated_conjecture, ~ on(may3, Time)).
