"""Room for trees that are some hundred levels deep."""
import sys
import threading


def with_deep_stack(function):
    """Calls the function on a thread with much stack, and gives what it gives."""
    sys.setrecursionlimit(1000000)
    threading.stack_size(512 * 1024 * 1024)
    results, faults = [], []

    def call():
        try:
            results.append(function())
        except BaseException as fault:  # pylint: disable=broad-except
            faults.append(fault)

    thread = threading.Thread(target=call)
    thread.start()
    thread.join()
    if faults:
        raise faults[0]
    return results[0]
