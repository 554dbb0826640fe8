% Only one question can be asked at a time.
cnf(bill_1, axiom, on(may1, evening)).
cnf(first_question, negated_conjecture, ~ on(may1, Time)).
cnf(second_question, negated_conjecture, ~ on(Day, matinee)).
