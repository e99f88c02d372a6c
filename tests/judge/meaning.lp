% Walk and settle as logic: what document 01 says of a plan on a task, and PDDL3's preferences as Gerevini et al. (2009) define
% them; time is counted in steps, so that state i is the one at time i.
% Each preference is a statement about state numbers i, j, k; nothing here follows a preference from state to state.
%
% Given for each vector T, which is an accepted task and a plan of known steps:
%   fact(T,F)  start(T,F)  length(T,N)  step(T,I,A)  action(T,A,Cost)  preference(T,K,Kind,Weight)
%   halves(High,Low)      is how a cost or a weight is given: it is 65,536 times High and Low, both below 65,536
%   hard(T,K)             preference K is a rule that must hold; its kind is named without `hard-`
%   deadline(T,K,D)       the STEPS row of preference K has the value D
%   gives(T,A,E,V,F)      effect E of action A gives fact F the value V: ADD gives holds, DELETE gives lacks
%   condition(T,C)        C is goal, pre(A), when(A,E), phi(K) or psi(K)
%   clause(T,C,J)         condition C has clause J
%   literal(T,C,J,V,F)    a literal of it: V is holds or lacks

#defined deadline/3.  #defined hard/2.

opposite(holds,lacks).  opposite(lacks,holds).

% ---- conditions. False is written out beside true, so that the states follow without "not" and gringo finds each of them whole.

% Where a condition is read: preconditions and effect conditions in the state a step leaves, the goal in state n,
% φ and ψ in every state.
read(T,pre(A),I)    :- state(T,I), step(T,I,A).
read(T,when(A,E),I) :- state(T,I), step(T,I,A), condition(T,when(A,E)).
read(T,goal,N)      :- state(T,N), length(T,N).
read(T,phi(K),I)    :- state(T,I), preference(T,K,_,_).
read(T,psi(K),I)    :- state(T,I), condition(T,psi(K)).

% A clause is true if some literal is, and false if the opposite of each literal is true.
clause_true(T,C,J,I)  :- read(T,C,I), literal(T,C,J,V,F), value(T,I,F,V).
clause_false(T,C,J,I) :- read(T,C,I), clause(T,C,J), value(T,I,F,W) : literal(T,C,J,V,F), opposite(V,W).

% A condition is true if every clause is, so one with no clauses is true.
true(T,C,I)  :- read(T,C,I), clause_true(T,C,J,I) : clause(T,C,J).
false(T,C,I) :- clause_false(T,C,J,I).

% ---- the states visited: state(T,I), and value(T,I,F,V) for each fact F

% START rows give state 0.
state(T,0) :- length(T,_).
value(T,0,F,holds) :- start(T,F).
value(T,0,F,lacks) :- fact(T,F), not start(T,F).

% A step applies if the action's precondition is true in the state it leaves. The first that does not apply ends the states.
applies(T,I,A) :- step(T,I,A), true(T,pre(A),I).
stopped(T,I)   :- step(T,I,A), false(T,pre(A),I).
state(T,I+1)   :- applies(T,I,_).

% What the firing effects of a step give, and what no firing effect gives; all effect conditions are read in the state before.
given(T,I,V,F)   :- applies(T,I,A), gives(T,A,E,V,F), true(T,when(A,E),I).
ungiven(T,I,V,F) :- applies(T,I,A), fact(T,F), opposite(V,_), false(T,when(A,E),I) : gives(T,A,E,V,F).

% Deleted facts go out, then added facts come in: a fact holds if it is added, or held before and not deleted.
value(T,I+1,F,holds) :- given(T,I,holds,F).
value(T,I+1,F,holds) :- ungiven(T,I,lacks,F), value(T,I,F,holds).
value(T,I+1,F,lacks) :- ungiven(T,I,holds,F), given(T,I,lacks,F).
value(T,I+1,F,lacks) :- ungiven(T,I,holds,F), value(T,I,F,lacks).

% The two written-out halves fit: a fact holds or lacks, a condition is true or false, and never both.
:- value(T,I,F,holds), value(T,I,F,lacks).      :- state(T,I), fact(T,F), not value(T,I,F,holds), not value(T,I,F,lacks).
:- true(T,C,I), false(T,C,I).                   :- read(T,C,I), not true(T,C,I), not false(T,C,I).

% ---- the verdict: each step applies in turn, the goal holds in state n, and no hard rule is missed; else the lowest is named

goal_met(T)      :- true(T,goal,_).
goal_missed(T)   :- false(T,goal,_).
broken(T)        :- hard(T,K), missed(T,K).
rule_missed(T,K) :- broken(T), K = #min { J : hard(T,J), missed(T,J) }.
solved(T)        :- goal_met(T), not broken(T).

% ---- which preferences are met. In Gerevini et al. (2009) a plan visits the states 0 to n.

phi(T,K,I) :- goal_met(T), true(T,phi(K),I).
psi(T,K,I) :- goal_met(T), true(T,psi(K),I).

% always φ: for every i, φ in state i.
met(T,K) :- goal_met(T), preference(T,K,"always",_), phi(T,K,I) : state(T,I).

% sometime φ: there is i with φ in state i.
met(T,K) :- goal_met(T), preference(T,K,"sometime",_), phi(T,K,_).

% at end φ: φ in state n.
met(T,K) :- goal_met(T), preference(T,K,"at-end",_), length(T,N), phi(T,K,N).

% at-most-once φ: for every i with φ in state i there is j >= i
% with φ in every state k, i <= k <= j, and φ in no state k, k > j. (k is X here, as K is the preference.)
met(T,K) :- goal_met(T), preference(T,K,"at-most-once",_), only_run(T,K,I) : phi(T,K,I).
only_run(T,K,I) :- preference(T,K,"at-most-once",_), phi(T,K,I), state(T,J), J >= I,
                   phi(T,K,X) : state(T,X), I <= X, X <= J;
                   not phi(T,K,X) : state(T,X), X > J.

% sometime-before φ ψ: for every i with φ in state i there is j < i with ψ in state j.
met(T,K) :- goal_met(T), preference(T,K,"sometime-before",_), preceded(T,K,I) : phi(T,K,I).
preceded(T,K,I) :- preference(T,K,"sometime-before",_), phi(T,K,I), psi(T,K,J), J < I.

% sometime-after φ ψ: for every i with φ in state i there is j >= i with ψ in state j.
met(T,K) :- goal_met(T), preference(T,K,"sometime-after",_), followed(T,K,I) : phi(T,K,I).
followed(T,K,I) :- preference(T,K,"sometime-after",_), phi(T,K,I), psi(T,K,J), J >= I.

% within t φ: there is i <= t with φ in state i. (t is D here, as T is the vector.)
met(T,K) :- goal_met(T), preference(T,K,"within",_), deadline(T,K,D), phi(T,K,I), I <= D.

% always-within t φ ψ: for every i with φ in state i there is j, i <= j <= i + t, with ψ in state j.
met(T,K) :- goal_met(T), preference(T,K,"always-within",_), in_time(T,K,I) : phi(T,K,I).
in_time(T,K,I) :- preference(T,K,"always-within",_), deadline(T,K,D), phi(T,K,I), psi(T,K,J), I <= J, J <= I+D.

missed(T,K) :- goal_met(T), preference(T,K,_,_), not met(T,K).

% ---- the sums: the cost of the steps; the metric adds the weights of missed preferences; the utility is those of met ones less
% the cost. The high halves of the amounts are summed, and the low halves. No sum goes over 2,064 times 65,535, which is 135,264,240
% and which gringo's 32 bits hold.

cost(T,High,Low)         :- solved(T), High = #sum { H,I : step(T,I,A), action(T,A,halves(H,_)) },
                                       Low  = #sum { L,I : step(T,I,A), action(T,A,halves(_,L)) }.
lost(T,High,Low)         :- solved(T), High = #sum { H,K : missed(T,K), preference(T,K,_,halves(H,_)) },
                                       Low  = #sum { L,K : missed(T,K), preference(T,K,_,halves(_,L)) }.
got(T,High,Low)          :- solved(T), High = #sum { H,K : met(T,K), preference(T,K,_,halves(H,_)) },
                                       Low  = #sum { L,K : met(T,K), preference(T,K,_,halves(_,L)) }.
metric(T,High+H,Low+L)   :- cost(T,High,Low), lost(T,H,L).
utility(T,H-High,L-Low)  :- cost(T,High,Low), got(T,H,L).

#show stopped/2.
#show goal_missed/1.
#show rule_missed/2.
#show cost/3.
#show met(T,K) : met(T,K), solved(T).
#show missed(T,K) : missed(T,K), solved(T).
#show metric/3.
#show utility/3.
