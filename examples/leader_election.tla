\* Leader election on a ring, by Chang and Roberts. Each node sends its number to the next one. A node hands on a number that is
\* greater than its own and drops one that is less. A number that comes back to its own node is the greatest: this node is the
\* leader, and says so once around the ring.
\*
\* Numbers: the numbers of the nodes along the ring, each another one and greater than 0. BUFFER_SIZE: how many messages a link
\* holds, 1 or more.
\*
\* Look at `act`: each of its branches sends at most one message, so that a section never needs two links. At its end each node
\* asserts that no number is greater than the leader's.
\*
\*     ./pgo run --attempts 100000 'Numbers=<<2, 4, 1, 3>>' BUFFER_SIZE=1 < examples/leader_election.tla

---- MODULE LeaderElection ----
EXTENDS Integers, Sequences
CONSTANTS Numbers, BUFFER_SIZE
(*
--mpcal LeaderElection {
  define { NodeSet == 1..Len(Numbers)  Nobody == 0 }

  mapping macro ReliableFIFOLink {
    read { await Len($variable) > 0;
           with (first = Head($variable)) { $variable := Tail($variable); yield first; }; }
    write { await Len($variable) < BUFFER_SIZE; yield Append($variable, $value); }
  }

  archetype ANode(ref link[_], number, next) variables leader = Nobody, msg; {
    start: link[next] := [type |-> "candidate", number |-> number];
    listen: while (leader = Nobody) {
      msg := link[self];
    act:
      if (msg.type = "elected") {
        leader := msg.number;
        if (leader # number) { link[next] := msg; };
      } else if (msg.number > number) {
        link[next] := msg;
      } else if (msg.number = number) {
        link[next] := [type |-> "elected", number |-> number];
      };
    };
    assert \A i \in NodeSet : Numbers[i] =< leader;
  }

  variables link = [i \in NodeSet |-> <<>>];

  fair process (Node \in NodeSet) == instance ANode(ref link[_], Numbers[self], (self % Len(Numbers)) + 1)
    mapping link[_] via ReliableFIFOLink;
}
*)
====
