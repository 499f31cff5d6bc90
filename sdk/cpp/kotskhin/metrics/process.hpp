// Which process a thing is of.
#pragma once
#include "kotskhin/metrics/refusal.hpp"
#include <memory>
#include <mutex>
#include <sys/types.h>
#include <thread>
#include <unistd.h>

namespace kotskhin::metrics::detail {

// The process that made a thing. A fork of it has a copy of the thing, but not the other threads: what these were amid of stays so there,
// and their locks are never given back.
class Process {
    pid_t id = getpid();

public:
    bool is_another() const noexcept { return getpid() != id; }
    // Throws FORKED in another process.
    void check() const {
        if (is_another()) throw make_refused(FORKED);
    }
    // A lock's hold. The process is looked at only where the lock is taken: there a fork would wait for ever.
    template <template <typename> class Hold = std::unique_lock, typename Lock>
    Hold<Lock> hold(Lock &lock) const {
        Hold<Lock> has(lock, std::try_to_lock);
        if (has) return has;
        check();
        has.lock();
        return has;
    }
};

// A thing that threads share. A fork leaves it as it is, since another thread may have been amid a change, or waited there.
template <typename Thing, typename... Given>
std::shared_ptr<Thing> make_left_by_forks(Given &&...given) {
    auto deletes = [process = Process()](Thing *thing) {
        if (!process.is_another()) delete thing;
    };
    return std::shared_ptr<Thing>(new Thing(std::forward<Given>(given)...), deletes);
}

// A thread that is joined or detached before this is gone. A fork does neither: it has no such thread, and the handle may be that of
// another one by then.
struct OwnThread {
    union {
        std::thread thread;
    };
    OwnThread() : thread() {}
    ~OwnThread() {}
    OwnThread(const OwnThread &) = delete;
    OwnThread &operator=(const OwnThread &) = delete;
};

}  // namespace kotskhin::metrics::detail
