\* A bounded queue of jobs, workers that take them, and a supervisor that hands jobs out, and once more those that a worker gave up.
\*
\* NumWorkers, NumJobs: how many there are. NumGivenUp: how many jobs each worker may give up. CAPACITY: how many messages a queue
\* holds, 1 or more.
\*
\* Look at both `either`: in the supervisor's an arm is blocked where nothing is to be handed out, or nothing was reported, and in
\* the worker's where it has given up enough. Which arm an attempt tries first hangs on the seed; where that is blocked it tries the
\* other one. The assert says that each job was done by one worker, whoever gave it up before.
\*
\*     ./pgo run --attempts 100000 NumWorkers=2 NumJobs=3 NumGivenUp=1 CAPACITY=2 < examples/work_queue.tla

---- MODULE WorkQueue ----
EXTENDS Integers, Sequences, FiniteSets
CONSTANTS NumWorkers, NumJobs, NumGivenUp, CAPACITY
(*
--mpcal WorkQueue {
  define {
    SupervisorID == 0
    WorkerSet == 1..NumWorkers
    Jobs == 1..NumJobs
    Stop == [kind |-> "stop"]
    Work(j) == [kind |-> "work", job |-> j]
  }

  mapping macro Queue {
    read { await Len($variable) > 0;
           with (msg = Head($variable)) { $variable := Tail($variable); yield msg; }; }
    write { await Len($variable) < CAPACITY; yield Append($variable, $value); }
  }

  archetype AWorker(ref todo, ref reports, ref results)
  variables msg, given_up = 0; {
    take:
      msg := todo;
      if (msg.kind = "stop") {
        goto Done;
      } else {
        do: either {
          results[msg.job] := results[msg.job] \cup {self};
          reports := [ok |-> TRUE, job |-> msg.job];
        } or {
          await given_up < NumGivenUp;
          given_up := given_up + 1;
          reports := [ok |-> FALSE, job |-> msg.job];
        };
        goto take;
      };
  }

  archetype ASupervisor(ref todo, ref reports, ref results)
  variables open = Jobs, pending = {}, report, stopped = 0; {
    loop: while (open # {} \/ pending # {}) {
      either {
        await open # {};
        with (j \in open) {
          todo := Work(j);
          open := open \ {j};
          pending := pending \cup {j};
        };
      } or {
        report := reports;
        pending := pending \ {report.job};
        if (~report.ok) { open := open \cup {report.job}; };
      };
    };
    check:
      assert \A j \in Jobs : Cardinality(results[j]) = 1;
    stop: while (stopped < NumWorkers) {
      todo := Stop;
      stopped := stopped + 1;
    };
  }

  variables todo = <<>>, reports = <<>>, results = [j \in Jobs |-> {}];

  fair process (Supervisor = SupervisorID) == instance ASupervisor(ref todo, ref reports, ref results)
    mapping todo via Queue
    mapping reports via Queue;

  fair process (Worker \in WorkerSet) == instance AWorker(ref todo, ref reports, ref results)
    mapping todo via Queue
    mapping reports via Queue;
}
*)
====
