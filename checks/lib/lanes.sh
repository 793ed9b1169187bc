#!/bin/sh
# Prints how many crates the gate may prove at a time: one for each processor, as far as the free memory has 3.5 GB for each, and at least one.
# With this number in RT_JOBS the gate uses all lanes; without it, it goes by its own estimate of memory, which is up to five times what a proof takes.

# The number that a file holds, or nothing.
number() {
    [ -r "$1" ] && grep -x '[0-9][0-9]*' "$1"
}

processors=$(nproc 2>/dev/null || echo 1)
free=$(awk '/^MemAvailable:/ { printf "%d", $2 / 1024 }' /proc/meminfo 2>/dev/null)
free=${free:-3500}
# The group's own limits, by the two versions of Linux's control groups.
for group in /sys/fs/cgroup:memory.max:memory.current /sys/fs/cgroup/memory:memory.limit_in_bytes:memory.usage_in_bytes; do
    folder=${group%%:*}
    names=${group#*:}
    limit=$(number "$folder/${names%%:*}") && held=$(number "$folder/${names#*:}") || continue
    room=$(awk -v limit="$limit" -v held="$held" 'BEGIN { room = (limit - held) / 1048576; printf "%d", room < 1000000 ? room : 1000000 }')
    [ "$room" -ge "$free" ] || free=$room
done
if [ -r /sys/fs/cgroup/cpu.max ]; then
    read -r quota period </sys/fs/cgroup/cpu.max
    if [ "$quota" != max ] && [ "$((quota / period))" -lt "$processors" ]; then
        processors=$((quota / period))
    fi
fi
lanes=$((free / 3500))
[ "$lanes" -le "$processors" ] || lanes=$processors
[ "$lanes" -ge 1 ] || lanes=1
echo "$lanes"
