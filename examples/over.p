% A rule that is too long for the engine: a clause may have 7 literals.
cnf(cast_1, axiom, plays(garrick, hamlet)).
cnf(any_role, axiom, ( plays(P, hamlet) | plays(P, laertes) | plays(P, horatio) | plays(P, ghost) | plays(P, polonius) | plays(P, claudius) | plays(P, osric) | ~ on_stage(P) )).
cnf(who, negated_conjecture, ~ plays(Who, hamlet)).
