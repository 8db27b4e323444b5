# For tools/words.sh, in a plain shell: helps a run in threads to its share of busy cores.
#
# The threads of a run wait for one another in each window. If other programs keep the cores busy, a woken thread may
# wait for slices of several of them, some milliseconds each, and the run takes many times its fair share
# (docs/PERFORMANCE.md).

# Prepares this process, and so the program after it, for the cores as they are now.
meet_busy_cores() {
    # The fourth word is RUNNABLE/ALL tasks, and this shell is one of the runnable ones.
    read -r _ _ _ tasks _ </proc/loadavg && [ "${tasks%%/*}" -gt 1 ] || return 0
    ask_for_short_slices || :
    if [ "${tasks%%/*}" -gt "$(getconf _NPROCESSORS_ONLN)" ]; then
        stay_on_one_core || :
    fi
} >/dev/null 2>&1

# Asks for slices of 0.1 ms for good, in place of any length that was set before. Linux from 6.12 on then lets woken
# threads run earlier; their share of the core is the same. Without perl, and on other systems, nothing changes.
ask_for_short_slices() {
    # sched_setattr(2) takes: size, policy, flags, nice value, priority, slice in ns, and two values of other policies.
    # The flag 8 keeps the policy.
    perl -e '
        my ($process, $call) = (shift() + 0, 314);
        my $attributes = pack("LLQlLQQQ", 48, 0, 8, getpriority(0, $process), 0, 100_000, 0, 0);
        syscall($call, $process, $attributes, 0);
    ' "$$"
}

# Keeps this process on one of its cores for good.
stay_on_one_core() {
    list=$(taskset -cp "$$") || return 0
    cores=
    count=0
    # The end of the line is a list as 0-3,8.
    for range in $(printf '%s' "${list##* }" | tr , ' '); do
        core=${range%-*}
        while [ "$core" -le "${range#*-}" ]; do
            cores="$cores $core"
            count=$((count + 1))
            core=$((core + 1))
        done
    done
    [ "$count" -gt 1 ] || return 0
    # Runs that start together are spread over the cores by their process IDs.
    skipped=$(($$ % count))
    for core in $cores; do
        [ "$skipped" -gt 0 ] || break
        skipped=$((skipped - 1))
    done
    taskset -cp "$core" "$$"
}
