% The minimal sets of a query, for gringo and clasp.
%
% The facts are the records of a table and a query, number for number:
%
%   query(Principal, Owner, Name, Depth).
%   credential(Number, Owner, Name, Kind, First, Second, Automaton).
%   cell(Number, Principal, Name, Next).
%   automaton(Number, Starting, Accepting, Mark).
%   edge(Automaton, From, Label, Owner, Name, To).
%
% Table T of docs/DEFINITION.md with query Q, and a line for each minimal set:
%
%   echo "query(4,1,1,2). credential(1,1,1,3,3,2,0). credential(2,1,3,1,2,0,0).
%         credential(3,2,2,1,4,0,0). credential(4,1,1,1,4,0,0)." |
%   gringo bench/asp/minimal.lp - |
%   clasp --models=0 --heuristic=Domain --dom-mod=false,show --enum-mode=domRec
%
% One rule is not that of docs/DEFINITION.md: here no role comes twice on a
% branch, there no pair of principal and role. Where no role can come again with
% another principal the two are the same, and the program is run on such tables
% alone (bench/src/peers/again.rs). To go by pairs, a place would have to be a
% whole branch with its principals, and there are far more of them than words.
%
% Nor does it know of marks: each automaton is taken to demand every word, and the
% program is run on tables in which each does. Where one word is enough it would
% matter which derivations of two places go together, and so a tree would have to
% be guessed.
%
% A set of credentials is guessed, the automata of all its credentials are
% imposed, and the goal must have a derivation that uses only credentials of the
% set and has each word accepted by each of these automata. The derivation need
% not use the whole set, so there are more such sets than used sets of accepted
% records. But the minimal ones are the same:
%
% - The used set of an accepted record is such a set: the imposed automata are
%   the used ones.
% - The derivation of such a set is an accepted record: its used set is part of
%   that set, so the used automata are among the imposed ones. Hence a part of
%   the set, or all of it, is the used set of an accepted record.
%
% To find the minimal ones is left to clasp. With these options it decides the
% shown atoms first, and against each of them, so that the answer set it comes
% to can do without none of its shown atoms (Domain, and false for what is
% shown). Then it rules out all answer sets that show the same atoms, and maybe
% more (domRec). So every minimal set comes once, and nothing else.
%
% Whether a goal can be derived in some place depends on the word that leads to
% it: which roles may not come again, how many levels are left, where the
% automata stand. It does not depend on what is derived elsewhere, since the
% imposed automata are those of the guessed set and not those of a tree. So a
% place is a word with a principal, and in each place a goal is proved or not,
% once for all nodes that may stand there. A goal below different words is
% in different places, and may be proved in different ways. No tree is guessed.
% Words are written backwards: w(Owner, Name, Above), where the goal's Above is
% top.
%
% Everything but what is said of the guessed set follows from the facts alone,
% so that gringo works it out, the automata's runs included. clasp is given the
% places, and decides on sets of credentials.

#defined cell/4.
#defined automaton/4.
#defined edge/6.
#defined credential/7.

% ---- What the records say ------------------------------------------------

% The roles that are defined. Each counts two to the lowest number of a
% credential that defines it, so that a set of roles is a number.
role(O, N, 2**I) :-
    credential(_, O, N, _, _, _, _),
    I = #min { C : credential(C, O, N, _, _, _, _) }.

part(C, K) :- credential(C, _, _, 4, K, _, _).
part(C, X) :- part(C, K), cell(K, _, _, X), X > 0.
part(C, O, N) :- part(C, K), cell(K, O, N, _).

% The set of the roles that a chain names.
every(C, Set) :-
    credential(C, _, _, 4, _, _, _),
    Set = #sum { R : part(C, O, N), role(O, N, R) }.

starting(A, S) :- automaton(A, Set, _, _), S = 0..15, Set & 2**S != 0.
accepting(A, S) :- automaton(A, _, Set, _), S = 0..15, Set & 2**S != 0.
attached(C, A) :- credential(C, _, _, _, _, _, A), A > 0.

move(A, S, O, N, T) :- edge(A, S, 1, O, N, T).
move(A, S, O, N, T) :- edge(A, S, 2, _, _, T), role(O, N, _).
move(A, S, O, N, T) :- edge(A, S, 3, P, M, T), role(O, N, _), (O, N) != (P, M).
move(A, S, O, N, T) :- edge(A, S, 4, O, _, T), role(O, N, _).

% ---- Who is in which role --------------------------------------------------

% As far as the four kinds of credentials go, whatever the words, the levels
% and the roles above. Nobody else needs to be asked for.
member(P, O, N) :- credential(_, O, N, 1, P, _, _).
member(P, O, N) :- credential(_, O, N, 2, Q, M, _), member(P, Q, M).
member(P, O, N) :-
    credential(_, O, N, 3, S, T, _), member(M, O, S), member(P, M, T).
member(P, O, N) :-
    credential(C, O, N, 4, _, _, _), member(P, _, _),
    member(P, Q, M) : part(C, Q, M).

% ---- Where nodes may stand -----------------------------------------------

% The principal P may be asked to be in the last role of the word W.
at(w(O, N, top), P) :- query(P, O, N, _), member(P, O, N).

% A word has so many roles, and this is their set.
word(w(O, N, top), 1, R) :- at(w(O, N, top), _), role(O, N, R).
word(w(O, N, W), L + 1, Set + R) :-
    at(w(O, N, W), _), word(W, L, Set), role(O, N, R).

% Nodes may stand right below a word, with other roles than these.
room(W, Set) :- word(W, L, Set), query(_, _, _, D), L < D.

% The goal can be proved through credential C by way of the middle M, as far
% as its premises may stand there; these are the premises. Kind 1 has none.
leaf(w(O, N, W), P, C) :- at(w(O, N, W), P), credential(C, O, N, 1, P, _, _).

premise(w(O, N, W), P, C, 0, w(Q, M, w(O, N, W)), P) :-
    at(w(O, N, W), P), credential(C, O, N, 2, Q, M, _),
    member(P, Q, M), room(w(O, N, W), Set), role(Q, M, R), Set & R == 0.

linked(w(O, N, W), P, C, M, S, T) :-
    at(w(O, N, W), P), credential(C, O, N, 3, S, T, _),
    member(M, O, S), member(P, M, T), room(w(O, N, W), Set),
    role(O, S, R1), Set & R1 == 0, role(M, T, R2), Set & R2 == 0.
premise(w(O, N, W), P, C, M, w(O, S, w(O, N, W)), M) :-
    linked(w(O, N, W), P, C, M, S, _).
premise(w(O, N, W), P, C, M, w(M, T, w(O, N, W)), P) :-
    linked(w(O, N, W), P, C, M, _, T).

all_parts(w(O, N, W), P, C) :-
    at(w(O, N, W), P), credential(C, O, N, 4, _, _, _),
    member(P, Q, M) : part(C, Q, M);
    room(w(O, N, W), Set), every(C, Parts), Set & Parts == 0.
premise(W, P, C, 0, w(Q, M, W), P) :- all_parts(W, P, C), part(C, Q, M).

at(W, P) :- premise(_, _, _, _, W, P).

% ---- The words and the automata ------------------------------------------

read(w(O, N, top), A, T) :-
    word(w(O, N, top), _, _), starting(A, S), move(A, S, O, N, T).
read(w(O, N, W), A, T) :-
    word(w(O, N, W), _, _), read(W, A, S), move(A, S, O, N, T).
accepted(W, A) :- read(W, A, S), accepting(A, S).

% ---- The guessed set and what follows from it ----------------------------

{ in(C) : credential(C, _, _, _, _, _, _) }.

imposed(A) :- in(C), attached(C, A).
rejected(W) :- leaf(W, _, _), imposed(A), not accepted(W, A).

proved(W, P) :- leaf(W, P, C), in(C), not rejected(W).
way(W, P, C, M) :- premise(W, P, C, M, _, _).
proved(W, P) :-
    way(W, P, C, M), in(C), proved(V, Q) : premise(W, P, C, M, V, Q).

:- query(P, O, N, _), not proved(w(O, N, top), P).

#show in/1.
