# Whether this processor has what x86-64-v3 takes: for ./plasma and .ci/run, which read this by `source`.
#
# The program for such processors ends with status 127, before it does anything, where one of these is missing.

# What x86-64-v3 takes, by the names of /proc/cpuinfo (there sse3 is pni, lzcnt is abm, and osxsave shows as xsave).
taken_flags="cx16 lahf_lm pni popcnt sse4_1 sse4_2 ssse3 abm avx avx2 bmi1 bmi2 f16c fma movbe xsave"

# Sets `lacking` to what of that the processor hasn't got, by this file, which is /proc/cpuinfo but in tests: to nothing
# where it has all, and to all where the file doesn't tell.
look_at_processor() {
    local name flags='' flag
    while read -r name _ flags; do
        [ "$name" != flags ] || break
    done 2> /dev/null < "$1"
    lacking=''
    for flag in $taken_flags; do
        [[ " $flags " = *" $flag "* ]] || lacking=$lacking${lacking:+ }$flag
    done
}
