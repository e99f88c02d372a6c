% The rules of planner.py: the cheapest list of steps that solves a task, as PDDL says what that is.
%
% Given as constants:
%   horizon               the most steps that a list may have
%   sign                  1 for the cheapest list, -1 for the dearest
% Given from the texts, where conditions and effects are numbered:
%   fact(C,F)  negation(C,D)  conjunction(C)  disjunction(C)  part(C,D)
%   init(F)  goal(C)  action(A,Cost)  precondition(A,C)
%   effect(A,E)  when(E,C)  adds(E,F)  deletes(E,F)     an effect without `when` has no condition

#defined fact/2.  #defined negation/2.  #defined conjunction/1.  #defined disjunction/1.  #defined part/2.
#defined init/1.  #defined action/2.  #defined precondition/2.
#defined effect/2.  #defined when/2.  #defined adds/2.  #defined deletes/2.

% A list of N steps has the times 0 to N.
{ length(0..horizon) } = 1.
time(0..N) :- length(N).
{ step(I,A) : action(A,_) } = 1 :- time(I), time(I+1).

% Conditions at a time.
true(C,I) :- time(I), fact(C,F), holds(F,I).
true(C,I) :- time(I), negation(C,D), not true(D,I).
true(C,I) :- time(I), conjunction(C), true(D,I) : part(C,D).
true(C,I) :- time(I), disjunction(C), part(C,D), true(D,I).

% Every effect reads the time of its step. What is deleted goes out first, so that a fact both added and deleted holds.
blocked(E,I) :- time(I), when(E,C), not true(C,I).
fires(E,I)   :- step(I,A), effect(A,E), not blocked(E,I).
deleted(F,I) :- fires(E,I), deletes(E,F).
holds(F,0)   :- init(F).
holds(F,I+1) :- fires(E,I), adds(E,F).
holds(F,I+1) :- time(I+1), holds(F,I), not deleted(F,I).

:- step(I,A), precondition(A,C), not true(C,I).
:- length(N), goal(C), not true(C,N).

#minimize { sign*Cost,I : step(I,A), action(A,Cost) }.

#show step/2.
