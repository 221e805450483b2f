"""A queue: workers claim jobs one at a time, each with a change, until none is left. No two workers claim the same job."""

import threading
from typing import List, Optional

import bestore

JOBS, WORKERS = 200, 4


def claim(change: bestore.Change) -> Optional[int]:
    """Claims the most urgent waiting job and returns it, or None if there is none.

    A claimed job loses its urgency, so that the next claim doesn't have to skip it to reach a waiting job.
    """
    found = change.query("job:state==waiting", by="job:urgency", descending=True, limit=1)
    for job in found:
        change[job]["job:state"] = "claimed"
        del change[job]["job:urgency"]
        return job
    return None


def work(store: bestore.Pass, claimed: List[int]) -> None:
    """Claims jobs until none is left."""
    with store:
        job = store.change(claim)
        while job is not None:
            claimed.append(job)
            job = store.change(claim)


def main() -> None:
    with bestore.open() as store:
        store.make_index("job:state", bestore.STRING)
        store.make_index("job:urgency", bestore.INT64)
        for number in range(JOBS):
            job = store.new_node()
            store.apply(bestore.Batch().set(job, "job:state", "waiting").set(job, "job:urgency", number % 10))
        claimed: List[List[int]] = [[] for _ in range(WORKERS)]
        threads = [threading.Thread(target=work, args=(store.another(), jobs)) for jobs in claimed]
        for thread in threads:
            thread.start()
        for thread in threads:
            thread.join()
        jobs = [job for of_worker in claimed for job in of_worker]
        print(len(jobs), len(set(jobs)))


if __name__ == "__main__":
    main()
