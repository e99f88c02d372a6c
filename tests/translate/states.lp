% A list of steps on a task, and the states it visits, as document 01 says under 'What it means'. clasp chooses the list.
%
% Given as constants:
%   horizon               the most steps that a list may have
%   sign                  1 for the cheapest list, -1 for the dearest; the programs that include this one minimize sign times a sum
% Given from the bytes of a task file:
%   start(F)  action(A,Cost)
%   gives(A,E,V,F)        effect E of action A gives fact F the value V: ADD gives holds, DELETE gives lacks
%   condition(C)          C is goal, pre(A), when(A,E), phi(K) or psi(K)
%   clause(C,J)           condition C has clause J
%   literal(C,J,V,F)      a literal of it: V is holds or lacks

#defined start/1.  #defined action/2.  #defined gives/4.  #defined clause/2.  #defined literal/4.

% A list of N steps visits the states 0 to N, and step I leads from state I to state I + 1.
{ length(0..horizon) } = 1.
state(0..N) :- length(N).
{ step(I,A) : action(A,_) } = 1 :- state(I), state(I+1).

% A clause is true if some literal is; a condition if every clause is, so one with no clauses is true.
clause_true(C,J,I) :- state(I), literal(C,J,holds,F), holds(I,F).
clause_true(C,J,I) :- state(I), literal(C,J,lacks,F), not holds(I,F).
true(C,I) :- state(I), condition(C), clause_true(C,J,I) : clause(C,J).

% START rows give state 0. All effect conditions of a step are read in the state before it.
% Deleted facts go out, then added facts come in: a fact both added and deleted is held.
given(I,V,F) :- step(I,A), gives(A,E,V,F), true(when(A,E),I).
holds(0,F)   :- start(F).
holds(I+1,F) :- given(I,holds,F).
holds(I+1,F) :- state(I+1), holds(I,F), not given(I,lacks,F).

% The list solves: each step applies in turn, and the goal holds in the last state.
:- step(I,A), not true(pre(A),I).
:- length(N), not true(goal,N).

#show length/1.
#show step/2.
