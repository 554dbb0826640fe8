% Playbills of one house in May, and a question: at what time was Hamlet given on the third?
%
% A bill tells what was announced, a cast list who was to play what. Where a bill leaves the time open,
% the clause has two literals, and the engine keeps it open.

% bills: day, time
cnf(bill_1, axiom, on(may1, evening)).
cnf(bill_2, axiom, on(may2, matinee)).
cnf(bill_3, axiom, ( on(may3, matinee) | on(may3, evening) )).

% what was given
cnf(played_1, axiom, given(may1, rivals)).
cnf(played_2, axiom, given(may2, hamlet)).
cnf(played_3, axiom, given(may3, hamlet)).

% a play was given at a time if there was a performance at that time
cnf(at_that_time, axiom, ( at(Play, Day, Time) | ~ given(Day, Play) | ~ on(Day, Time) )).

% the cast, and who stands in for whom
cnf(cast_prince, axiom, cast(hamlet, prince, kemble)).
cnf(cast_ghost, axiom, cast(hamlet, ghost, siddons)).
cnf(stands_in, axiom, understudy(kean, kemble)).
cnf(ill, axiom, absent(kemble, may3)).
cnf(plays_himself, axiom, ( plays(Actor, Part, Day) | absent(Actor, Day) | ~ cast(Play, Part, Actor) | ~ given(Day, Play) )).
cnf(plays_instead, axiom, ( plays(Other, Part, Day) | ~ absent(Actor, Day) | ~ understudy(Other, Actor) | ~ cast(Play, Part, Actor) | ~ given(Day, Play) )).

% when was Hamlet given on the third?
cnf(when, negated_conjecture, ~ at(hamlet, may3, Time)).
