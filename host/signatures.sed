# host/signatures.sed: an exported function as Rust declares it, written as C declares it.
s/^fn \([a-z0-9_]*\)(\(.*\)) -> \([a-z0-9]*\)$/\3 \1(\2);/
s/^fn \([a-z0-9_]*\)(\(.*\))$/void \1(\2);/
s/\([a-z0-9_]*\): &mut \[\([a-z0-9]*\); \([0-9]*\)\]/\2 \1[\3]/g
s/\([a-z0-9_]*\): \*const \([a-z0-9]*\)/const \2 *\1/g
s/\([a-z0-9_]*\): \*mut \([a-z0-9]*\)/\2 *\1/g
s/\([a-z0-9_]*\): &mut \([a-z0-9]*\)/\2 *\1/g
s/\([a-z0-9_]*\): \([a-z0-9]*\)/\2 \1/g
s/\bu8\b/uint8_t/g
s/\bu32\b/uint32_t/g
s/\bu64\b/uint64_t/g
s/\bi32\b/int32_t/g
s/\bi64\b/int64_t/g
s/\busize\b/size_t/g
s/\bf32\b/float/g
s/\bf64\b/double/g
s/();$/(void);/
