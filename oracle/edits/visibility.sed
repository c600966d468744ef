# Visibility alone: what is private in the original and compared here is made `pub`.
# every field of every struct
/^\(pub \)\{0,1\}struct .*{$/,/^}/s/^    \([a-z_0-9]*: \)/    pub \1/
# every struct and every free function
s/^struct /pub struct /
s/^fn /pub fn /
# the methods of the bank, of the generator and of the filters
/^impl SincBankF32 {$/,/^}/s/^    fn /    pub fn /
/^impl SmoothRandom {$/,/^}/s/^    fn /    pub fn /
/^impl<const FACTOR: usize> PolyphaseUpsampler<FACTOR> {$/,/^}/s/^    fn /    pub fn /
/^impl DecimatingFir {$/,/^}/s/^    fn /    pub fn /
