# O1. The original's sin, cos and powf, pointed at the port's own three.
s/(PI \* x)\.sin()/boundary::sine(PI * x)/
s/phase\.cos()/boundary::cosine(phase)/g
s/(3\.0 \* phase)\.cos()/boundary::cosine(3.0 * phase)/g
s/(5\.0 \* phase)\.cos()/boundary::cosine(5.0 * phase)/g
s/2\.0_f64\.powf(/boundary::exp2(/g
