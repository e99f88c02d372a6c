% A planner for classical tasks with conditional effects: the least cost of a list that solves, and such a list.
% It knows nothing of preferences, nor of where a task comes from.

#include "states.lp".

#minimize { sign*Cost,step(I) : step(I,A), action(A,Cost) }.
