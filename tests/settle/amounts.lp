% Settle as logic: what document 01 says of metric and utility, and document 02's fifth request of its arguments.
%
% Given for each vector T, which is an accepted task with a cost and met preferences:
%   cost(T,Cost)  weight(T,K,Weight) of preference K  met(T,K) for each preference K, known or not, in the met set
%   halves(High,Low)      is how a cost or a weight is given: it is 65,536 times High and Low, and Low is below 65,536
% gringo's integers have 32 bits, so a vector whose cost has more than 47 is not given: High then has at most 31. The halves are summed
% apart: of a cost that is settled and sixteen weights, no sum goes over 135,266,287, which 31 bits hold.

% A cost over 2,048 times 4,294,967,295, which is 65,536 times 134,217,727 and 63,488, or a met preference not below P is refused.
refused(T) :- cost(T,halves(High,_)), High > 134217727.
refused(T) :- cost(T,halves(134217727,Low)), Low > 63488.
refused(T) :- met(T,K), not weight(T,K,_).

missed(T,K) :- weight(T,K,_), not met(T,K).

% Metric is cost plus the weights of missed preferences, utility is the weights of met ones minus cost. A sum is over pairs of
% half a weight and preference, so that equal weights count each.
lost(T,High,Low) :- cost(T,_), High = #sum { H,K : missed(T,K), weight(T,K,halves(H,_)) },
                               Low  = #sum { L,K : missed(T,K), weight(T,K,halves(_,L)) }.
got(T,High,Low)  :- cost(T,_), High = #sum { H,K : met(T,K), weight(T,K,halves(H,_)) },
                               Low  = #sum { L,K : met(T,K), weight(T,K,halves(_,L)) }.

metric(T,High+H,Low+L)  :- cost(T,halves(High,Low)), not refused(T), lost(T,H,L).
utility(T,H-High,L-Low) :- cost(T,halves(High,Low)), not refused(T), got(T,H,L).

#show refused/1.
#show metric/3.
#show utility/3.
