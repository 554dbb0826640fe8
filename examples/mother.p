% A problem in plain TPTP form: no one is a parent of himself if each person's mother is a parent of his
% (source 001; document 01, case 5). The engine says "none": it looked everywhere.
cnf(mother_is_parent,axiom,
    ( parent(X,mother(X)) )).

cnf(own_parent,negated_conjecture,
    ( ~ parent(Y,Y) )).
