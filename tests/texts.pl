#!/usr/bin/env perl
# Writes texts for comparisons with other collators, one per line, with a fixed seed: texts.pl COUNT
use strict;
use warnings;
binmode STDOUT, ':utf8';
my ($count) = @ARGV;

# Its own generator, so that every perl writes the same.
my $state = 20_200_310;
sub below { my ($n) = @_; $state = ($state * 1_103_515_245 + 12_345) & 0x7FFFFFFF; return int(($state >> 8) % $n) }
sub among { return $_[below(scalar @_)] }
sub from { my ($first, $last) = @_; return chr($first + below($last - $first + 1)) }

my @marks = map { chr } 0x300, 0x301, 0x302, 0x303, 0x304, 0x306, 0x307, 0x308, 0x30A, 0x30B, 0x30C, 0x31B, 0x323, 0x324, 0x325, 0x327, 0x328, 0x331, 0x338, 0x345;
my @thai_vowels = map { chr } 0xE40 .. 0xE44;
my @lao_vowels = map { chr } 0xEC0 .. 0xEC4;
my @tibetan = map { chr } 0xF40, 0xF71, 0xF72, 0xF73, 0xF74, 0xF75, 0xF80, 0xF81, 0xFB2, 0xFB3, 0xF39, 0xF90;
my @cyrillic = map { chr } 0x418, 0x438, 0x406, 0x456, 0x413, 0x433, 0x41A, 0x43A, 0x435, 0x436;
my @cyrillic_marks = map { chr } 0x306, 0x308, 0x301, 0x30F, 0x483, 0x323;
my @indic = map { chr } 0x9C7, 0x9BE, 0x9D7, 0xB47, 0xB3E, 0xB56, 0xB57, 0xBC6, 0xBC7, 0xBBE, 0xBD7, 0xCC6, 0xCC2, 0xCD5, 0xCD6, 0xD46, 0xD3E, 0xD57, 0xDD9, 0xDCF, 0xDCA, 0xDDF, 0x1025, 0x102E;

sub marked { return from(0x61, 0x7A) . join '', map { among(@marks) } 1 .. below(5) }

my @kinds = (
    sub { join '', map { marked() } 1 .. 1 + below(4) },                                  # Latin with stacked marks in any order
    sub { join '', map { from(0xC0, 0x24F) } 1 .. 1 + below(4) },                         # Latin, composed
    sub { join '', map { from(0x1E00, 0x1EFF) . among('', @marks) } 1 .. 1 + below(3) },
    sub { join '', map { among(@thai_vowels, '') . from(0xE01, 0xE2E) . among('', map { chr } 0xE48 .. 0xE4B) } 1 .. 1 + below(3) },
    sub { join '', map { among(@lao_vowels, '') . among('', chr 0xECA) . from(0xE81, 0xEAE) } 1 .. 1 + below(3) },
    sub { join '', map { among(@tibetan) . among('', among(@marks)) } 1 .. 1 + below(5) },
    sub { join '', map { among(@cyrillic) . join('', map { among(@cyrillic_marks) } 1 .. below(3)) } 1 .. 1 + below(3) },
    sub { join '', map { among(@indic) . among('', among(@marks)) } 1 .. 1 + below(4) },
    sub { join '', map { from(0xAC00, 0xD7A3) } 1 .. 1 + below(3) },                      # Hangul syllables
    sub { join '', map { from(0x1100, 0x1112) . from(0x1161, 0x1175) . among('', from(0x11A8, 0x11C2)) } 1 .. 1 + below(3) },
    sub { join '', map { among(from(0x4E00, 0x9FEF), from(0x3400, 0x4DB5), from(0x20000, 0x2A6D6), from(0x2A700, 0x2B734), from(0x30000, 0x3134A), from(0xFA0E, 0xFA29), from(0xF900, 0xFA0D)) } 1 .. 1 + below(3) },
    sub { join '', map { among(from(0x1F300, 0x1F64F), from(0x2600, 0x26FF), chr 0x200D, chr 0xFE0F) } 1 .. 1 + below(4) },
    sub { join '', map { among(from(0x50000, 0x50100), from(0xE000, 0xE100), chr 0x378, chr 0x10FFFD) } 1 .. 1 + below(3) },  # unassigned, private
    sub { join '', map { among(from(0x20, 0x7E), from(0xA0, 0xBF), from(0x2010, 0x2027)) } 1 .. 1 + below(6) },               # punctuation, digits
    sub { join '', map { among(marked(), from(0x20, 0x2F), chr 0xAD, chr 0x1, chr 0x34F) } 1 .. 1 + below(6) },               # ignorable between
    sub { join '', map { among(from(0x5D0, 0x5EA), from(0x621, 0x64A)) . among('', map { chr } 0x5B0, 0x5BC, 0x5C1, 0x64B, 0x651, 0x653, 0x654, 0x655) } 1 .. 1 + below(4) },
    sub { join '', map { among(from(0x3041, 0x3096), from(0x30A1, 0x30FA), from(0xFF66, 0xFF9D)) . among('', chr 0x3099, chr 0x309A) } 1 .. 1 + below(4) },
    sub { join '', map { among(from(0x17000, 0x187F7), from(0x18800, 0x18AFF), from(0x18B00, 0x18CD5), from(0x1B170, 0x1B2FB)) } 1 .. 1 + below(2) },  # siniform
    sub { join '', map { among(from(0x1D15E, 0x1D164), from(0x1D1BB, 0x1D1C0), from(0x2F800, 0x2FA1D), chr 0x1F82, chr 0x344, chr 0xF73) } 1 .. 1 + below(3) },
);
for my $i (1 .. $count) {
    my $text = $kinds[$i % @kinds]->();
    # Neighbours that differ late, so that later levels decide too.
    $text .= among('', '', marked(), '-', ' ', chr 0x301);
    print "$text\n";
}
