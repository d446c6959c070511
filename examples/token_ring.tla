\* A token ring. The nodes stand in a ring and pass one token on; who has it may work on a global that all of them share.
\*
\* NumNodes: how many nodes there are. NumRounds: how often the token comes to each of them. BUFFER_SIZE: how many tokens a link
\* would hold, 1 or more.
\*
\* Look at `look` and `add`: the shared count is read in one section and written in the next, so the count of another node that
\* came between would be lost. The token counts too, and the assert says that both agree: nobody comes between. `uses` is bound
\* without a mapping macro; `next` is a value argument that is worked out from `self`.
\*
\*     ./pgo run --attempts 100000 NumNodes=3 NumRounds=2 BUFFER_SIZE=1 < examples/token_ring.tla

---- MODULE TokenRing ----
EXTENDS Integers, Sequences
CONSTANTS NumNodes, NumRounds, BUFFER_SIZE
(*
--mpcal TokenRing {
  define { NodeSet == 0..NumNodes - 1 }

  mapping macro ReliableFIFOLink {
    read { await Len($variable) > 0;
           with (msg = Head($variable)) { $variable := Tail($variable); yield msg; }; }
    write { await Len($variable) < BUFFER_SIZE; yield Append($variable, $value); }
  }

  archetype ANode(ref link[_], ref uses, next) variables round = 0, token, seen; {
    take: while (round < NumRounds) {
      token := link[self];
      round := round + 1;
    look:
      seen := uses;
      assert seen = token;
    add:
      uses := seen + 1;
    pass:
      link[next] := token + 1;
    };
  }

  variables link = [i \in NodeSet |-> IF i = 0 THEN <<0>> ELSE <<>>], uses = 0;

  fair process (Node \in NodeSet) == instance ANode(ref link[_], ref uses, (self + 1) % NumNodes)
    mapping link[_] via ReliableFIFOLink;
}
*)
====
