\* Two-phase commit. A coordinator asks each participant whether it is ready, waits for all votes, and tells everyone to commit
\* where each of them voted yes, and else to abort. Messages go through mailboxes of bounded length.
\*
\* NumParticipants: how many participants there are. Refusing: the set of those that vote no. BUFFER_SIZE: how many messages a
\* mailbox holds, 1 or more.
\*
\* Look at the macro `send`, which is handed the mapped parameter `net` without its index; at the value argument `ready`, which
\* differs from one participant to the other; and at the last assert: a participant commits exactly where nobody refuses.
\*
\*     ./pgo run --attempts 100000 NumParticipants=3 'Refusing={2}' BUFFER_SIZE=1 < examples/two_phase_commit.tla

---- MODULE TwoPhaseCommit ----
EXTENDS Integers, Sequences
CONSTANTS NumParticipants, Refusing, BUFFER_SIZE
(*
--mpcal TwoPhaseCommit {
  define { CoordinatorID == 0  ParticipantSet == 1..NumParticipants  NodeSet == 0..NumParticipants }

  mapping macro ReliableFIFOLink {
    read { await Len($variable) > 0;
           with (msg = Head($variable)) { $variable := Tail($variable); yield msg; }; }
    write { await Len($variable) < BUFFER_SIZE; yield Append($variable, $value); }
  }

  macro send(channel, to, kind) { channel[to] := [from |-> self, type |-> kind]; }

  archetype ACoordinator(ref net[_])
  variables asked = 0, votes = 0, agreed = {}, told = 0, decision = "none"; {
    ask: while (asked < NumParticipants) {
      asked := asked + 1;
      send(net, asked, "prepare");
    };
    collect: while (votes < NumParticipants) {
      votes := votes + 1;
      with (vote = net[self]) {
        if (vote.type = "yes") { agreed := agreed \cup {vote.from}; };
      };
    };
    decision := IF agreed = ParticipantSet THEN "commit" ELSE "abort";
    tell: while (told < NumParticipants) {
      told := told + 1;
      send(net, told, decision);
    };
  }

  archetype AParticipant(ref net[_], ready) variables outcome = "none"; {
    prepare: with (request = net[self]) { assert request.type = "prepare"; };
    answer: send(net, CoordinatorID, IF ready THEN "yes" ELSE "no");
    learn: with (decided = net[self]) {
      outcome := decided.type;
      assert (outcome = "commit") <=> (Refusing \cap ParticipantSet = {});
    };
  }

  variables net = [i \in NodeSet |-> <<>>];

  fair process (Coordinator = CoordinatorID) == instance ACoordinator(ref net[_])
    mapping net[_] via ReliableFIFOLink;

  fair process (Participant \in ParticipantSet) == instance AParticipant(ref net[_], self \notin Refusing)
    mapping net[_] via ReliableFIFOLink;
}
*)
====
