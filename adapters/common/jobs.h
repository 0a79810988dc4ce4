// The background work of a database, in the order in which it was scheduled: on the caller's thread, so that a seed repeats a run, or on one
// thread of its own, for calls that wait for it.
#ifndef ADAPTERS_JOBS_H
#define ADAPTERS_JOBS_H

#include <condition_variable>
#include <deque>
#include <functional>
#include <mutex>
#include <thread>

namespace adapters {

class Jobs {
  public:
    using Job = std::function<void()>;

    ~Jobs() { stop(); }

    // `tag` is for `remove`.
    void add(Job job, void* tag = nullptr, Job unscheduled = nullptr) {
        std::lock_guard<std::mutex> lock(mutex_);
        jobs_.push_back({std::move(job), std::move(unscheduled), tag});
        changed_.notify_all();
    }

    // Runs jobs until none is left, or `most` of them.
    void run(size_t most = SIZE_MAX) {
        Job job;
        while (most-- > 0 && take(&job)) job();
    }

    // Removes the jobs of a tag, and returns how many. They aren't run.
    int remove(void* tag) {
        std::deque<Scheduled> removed;
        {
            std::lock_guard<std::mutex> lock(mutex_);
            for (auto at = jobs_.begin(); at != jobs_.end();) {
                if (at->tag == tag) {
                    removed.push_back(std::move(*at));
                    at = jobs_.erase(at);
                } else ++at;
            }
        }
        for (Scheduled& one : removed)
            if (one.unscheduled) one.unscheduled();
        return static_cast<int>(removed.size());
    }

    // From here to `stop` a thread runs the jobs.
    void start() {
        ends_ = false;
        worker_ = std::thread([this] {
            std::unique_lock<std::mutex> lock(mutex_);
            for (;;) {
                changed_.wait(lock, [this] { return ends_ || !jobs_.empty(); });
                if (jobs_.empty()) return;
                Job job = std::move(jobs_.front().job);
                jobs_.pop_front();
                lock.unlock();
                job();
                lock.lock();
            }
        });
    }

    // Returns once no job is left.
    void stop() {
        if (!worker_.joinable()) return;
        {
            std::lock_guard<std::mutex> lock(mutex_);
            ends_ = true;
            changed_.notify_all();
        }
        worker_.join();
    }

  private:
    struct Scheduled {
        Job job, unscheduled;
        void* tag;
    };
    std::mutex mutex_;
    std::condition_variable changed_;
    std::deque<Scheduled> jobs_;
    std::thread worker_;
    bool ends_ = false;

    bool take(Job* job) {
        std::lock_guard<std::mutex> lock(mutex_);
        if (jobs_.empty()) return false;
        *job = std::move(jobs_.front().job);
        jobs_.pop_front();
        return true;
    }
};

}  // namespace adapters

#endif
