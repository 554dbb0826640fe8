% Smullyan's problem 36, as source 000 has it (example 24, case b): on an island live knights, who always tell the truth, and knaves, who always lie.
% I asked one of two inhabitants: "Is one of you a knight?", and he said "no". What are the two?
cnf(one_or_other, axiom, ( true(isa(Q,knight)) | true(isa(Q,knave)) )).
cnf(not_both, axiom, ( ~ true(isa(Q,knight)) | ~ true(isa(Q,knave)) )).
cnf(who_tells_truth, axiom, ( true(isa(P,knight)) | ~ says(P,S) | ~ true(S) )).
cnf(what_knights_say, axiom, ( true(S) | ~ says(P,S) | ~ true(isa(P,knight)) )).
cnf(he_said_no, axiom, says(asked, not(or(isa(asked,knight), isa(other,knight))))).
cnf(true_or_not, axiom, ( true(not(C)) | true(C) )).
cnf(never_both, axiom, ( ~ true(not(C)) | ~ true(C) )).
cnf(either, axiom, ( ~ true(or(A,B)) | true(A) | true(B) )).
cnf(if_first, axiom, ( true(or(A,B)) | ~ true(A) )).
cnf(if_second, axiom, ( true(or(A,B)) | ~ true(B) )).
cnf(what_are_they, negated_conjecture, ( ~ true(isa(asked,X)) | ~ true(isa(other,Y)) )).
