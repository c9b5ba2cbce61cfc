#!/usr/bin/env perl
# Writes texts, one per line, each made from the one before, with a fixed seed: neighbours.pl COUNT
# They have long common prefixes, which end anywhere: inside a contraction or a run of marks, or between variable or ignorable
# characters. Or they differ in one place only, late or early, at one level or another.
use strict;
use warnings;
use Unicode::Normalize;
binmode STDOUT, ':utf8';
my ($count) = @ARGV;

# Its own generator, so that every perl writes the same.
my $state = 20_261_124;
sub below { my ($n) = @_; $state = ($state * 1_103_515_245 + 12_345) & 0x7FFFFFFF; return int(($state >> 8) % $n) }
sub among { return $_[below(scalar @_)] }
sub from { my ($first, $last) = @_; return chr($first + below($last - $first + 1)) }

my @marks = map { chr } 0x300, 0x301, 0x302, 0x306, 0x307, 0x308, 0x30A, 0x30C, 0x31B, 0x323, 0x327, 0x328, 0x338, 0x345, 0x483, 0x5B0, 0x64B, 0xF39, 0xE48, 0x3099;
my @joined = map { chr } 0xFB2, 0xFB3, 0xF71, 0xF72, 0xF73, 0xF74, 0xF80, 0xF81, 0x9C7, 0x9BE, 0x9D7, 0xBC6, 0xBBE, 0xBD7, 0xCC6, 0xCC2, 0xCD5, 0xCD6, 0xD46, 0xD3E,
    0xDD9, 0xDCF, 0xDCA, 0x418, 0x438, 0x406, 0x456, 0x43A, 0x1025, 0x102E, 0x1100, 0x1161, 0x11A8, 0x6C, 0xB7, 0x4C, 0x63, 0x68, 0x6E, 0x67;
my @characters = (
    sub { from(0x61, 0x7A) }, sub { from(0x41, 0x5A) }, sub { from(0x61, 0x66) }, sub { from(0xC0, 0x24F) }, sub { from(0x1E00, 0x1EFF) },
    sub { among(@marks) }, sub { among(@marks) }, sub { among(@joined) }, sub { among(@joined) }, sub { among(@joined) },
    sub { among(from(0xE40, 0xE44), from(0xEC0, 0xEC4)) . from(0xE01, 0xE2E) }, sub { from(0x430, 0x45F) },
    sub { among(from(0x20, 0x2F), from(0x3A, 0x40), from(0x2010, 0x2027)) },        # variable
    sub { among(chr 0xAD, chr 0x1, chr 0x34F, chr 0x200D, chr 0xFE0F) },              # ignorable
    sub { from(0x30, 0x39) }, sub { from(0xAC00, 0xD7A3) }, sub { from(0x4E00, 0x9FFF) }, sub { from(0x3041, 0x30FA) },
    sub { among(from(0x20000, 0x2A6D6), from(0x17000, 0x187F7), chr 0x10FFFD, chr 0x378, from(0x1F300, 0x1F64F), from(0x1D15E, 0x1D164)) },
);
sub some { my ($most) = @_; return join '', map { among(@characters)->() } 1 .. below($most + 1) }

# One character moved, in the other case, composed or decomposed, doubled, or removed.
sub changed {
    my ($text) = @_;
    my $at = below(2) ? below(1 + length $text) : length($text) - below(1 + (length($text) < 4 ? length $text : 4));
    my ($front, $back) = (substr($text, 0, $at), substr($text, $at));
    my $way = below(7);
    return $front . among(@characters)->() . $back if $way == 0;
    return $front . substr($back, length $back ? 1 : 0) if $way == 1;
    return $front . among('-', ' ', chr 0xAD, among(@marks)) . $back if $way == 2;
    return $front . NFD($back) if $way == 3;
    return $front . (length $back ? uc(substr $back, 0, 1) . substr($back, 1) : 'a') if $way == 4;
    return $front . (length $back > 1 ? substr($back, 1, 1) . substr($back, 0, 1) . substr($back, 2) : $back) if $way == 5;
    return $front . some(6);
}

my $text = '';
for (1 .. $count) {
    $text = below(12) ? changed($text) : some(60);
    $text = substr $text, 0, 90 if length $text > 90;
    # A run of marks that no valid text has, or a line end, would stop the program that reads these.
    $text = '' if NFD($text) =~ /\p{M}{25}/ || $text =~ /[\n\r]/;
    print "$text\n";
}
