% A planner for tasks with preferences: the least metric of a list that solves, and such a list. A list that misses a hard rule does
% not solve. The metric is the cost and the weights of missed preferences. What a kind means is the documents'; it is written here as what makes a preference missed.
% Each preference is a statement about state numbers; nothing here follows a preference from state to state.
%
% Given besides: preference(K,Kind,Weight), hard(K) where it must hold, and deadline(K,T) where it has a STEPS row, T being its value.

#include "states.lp".

#defined preference/3.  #defined hard/1.  #defined deadline/2.

phi(K,I) :- true(phi(K),I).
psi(K,I) :- true(psi(K),I).

% always φ is missed where some state lacks φ.
missed(K) :- preference(K,"always",_), state(I), not phi(K,I).

% sometime φ is missed where no state has φ.
missed(K) :- preference(K,"sometime",_), not somewhere(K).
somewhere(K) :- phi(K,_).

% at-end φ is missed where the last state lacks φ.
missed(K) :- preference(K,"at-end",_), length(N), not phi(K,N).

% at-most-once φ is missed where a state without φ stands between two with φ: these belong to two runs.
missed(K) :- preference(K,"at-most-once",_), phi(K,I), state(J), not phi(K,J), phi(K,X), I < J, J < X.

% sometime-before φ ψ is missed where a state has φ and none before it has ψ.
missed(K) :- preference(K,"sometime-before",_), phi(K,I), not before(K,I).
before(K,I) :- state(I), psi(K,J), J < I.

% sometime-after φ ψ is missed where a state has φ, and neither it nor one after it has ψ.
missed(K) :- preference(K,"sometime-after",_), phi(K,I), not after(K,I).
after(K,I) :- state(I), psi(K,J), J >= I.

% within t φ is missed where no state up to t has φ.
missed(K) :- preference(K,"within",_), not early(K).
early(K) :- phi(K,I), deadline(K,T), I <= T.

% always-within t φ ψ is missed where a state has φ, and neither it nor one of the t states after it has ψ.
missed(K) :- preference(K,"always-within",_), phi(K,I), not soon(K,I).
soon(K,I) :- state(I), psi(K,J), deadline(K,T), I <= J, J <= I+T.

:- hard(K), missed(K).

#minimize { sign*Cost,step(I)     : step(I,A), action(A,Cost);
            sign*Weight,weight(K) : missed(K), preference(K,_,Weight) }.

#show missed/1.
