#!/usr/bin/env perl
# Packed keys by the form in docs/DATABASES.md, made from sort keys by a second program. `packed.pl` lists the characters of which the
# code of primary weights is made, a line each. `packed.pl ELEMENTS STRENGTH` reads their lines of `uca elements` from a file, and for each
# line of `uca key` at the number of a strength it writes the packed key of the text.
use strict;
use warnings;

open my $source, '<:utf8', 'crates/uca_key/src/common_characters.rt' or die $!;
my $code = do { local $/; <$source> };
my ($commons, $singles, $anchors) = map { $code =~ /pub const $_\b.*? = \[(.*?)\];/s ? $1 : die $_ } qw(COMMON_RANGES SINGLE_CHARACTERS FIRST_LETTERS);
my @commons = map { my ($first, $last) = map hex, /0x([0-9A-F]+)/g; $first .. $last } $commons =~ /\((0x.*?)\)/g;
my ($single_points, $anchor_points) = map { [map { /u\{([0-9A-F]+)\}/ ? hex $1 : ord substr $_, -2, 1 } /'(?:\\u\{[0-9A-F]+\}|\\'|[^\\])'/g] } $singles, $anchors;
my @characters = (@commons, @$single_points, @$anchor_points);
if (!@ARGV) {
    binmode STDOUT, ':utf8';
    print chr, "\n" for @characters;
    exit;
}

my ($elements, $strength) = @ARGV;
open my $file, '<', $elements or die $!;
my @weights = map { /^\[[.*]([0-9A-F]{4})/ ? hex $1 : 0 } <$file>;
die "not a line for each character\n" unless @weights == @characters;
my %is_common = map { $_ => 1 } splice @weights, 0, @commons;
my @single = splice @weights, 0, @$single_points;
my %is_single = map { $_ => 1 } @single;
my @slot = (0);
for my $w (1 .. 0xFFFF) { $slot[$w] = $slot[$w - 1] + ($w % 256 == 0 || $is_common{$w} || $is_common{$w - 1} ? 1 : 0) }

sub both { ($_[0] >> 8, $_[0] & 255) }

sub lead {
    my $w = shift;
    my $high = $w < 0x6C00 ? $w >> 8 : $w < 0xFB00 ? 0x6C : $w < 0xFC00 ? 0x6D : 0x6E;
    return 1 + $high + (grep { $_ == $w } @single) + 2 * (grep { $_ < $w } @single);
}

sub first_level {
    my ($base, $after, @bytes) = ($weights[0], 0);
    for my $w (@_) {
        if ($after) {
            push @bytes, $w < 0x8000 ? 1 : (), both($w);
            $after = 0;
            next;
        }
        $after = $w >> 8 == 0xFB;
        my $slots = $slot[$w] - $slot[$base];
        if ($slots >= 0 && $slots < 119) {
            push @bytes, lead($base) + 1 + $slots, $is_common{$w} ? () : $w & 255;
            next;
        }
        push @bytes, lead($w) + ($slots < 0 ? 0 : 120);
        next if $is_single{$w};
        push @bytes, $w < 0x6C00 || $after ? $w & 255 : both($w);
        my ($anchor) = sort { $b <=> $a } grep { $_ && $_ <= $w } @weights;
        $base = $anchor if $anchor;
    }
    return (@bytes, 0);
}

sub weight { $_[0] < 254 ? $_[0] : (254, both($_[0])) }

sub later_level {
    my ($common, @bytes) = shift;
    my $n = 0;
    for my $w (@_) {
        if ($w == $common) {
            next if ++$n < 62;
            push @bytes, 124;
        } elsif ($w < $common) {
            push @bytes, 2 * $n + 1, weight($w);
        } elsif ($n < 2) {
            push @bytes, $w - $common < 35 ? 220 - 35 * $n + $w - $common : (255 - 35 * $n, weight($w));
        } else {
            push @bytes, 187 - $n, weight($w);
        }
        $n = 0;
    }
    return (@bytes, 2 * $n);
}

while (my $line = <STDIN>) {
    chomp $line;
    $line =~ tr/ //d;
    my @levels = ([]);
    while (length $line && !(@levels == 5)) {
        my $w = hex substr $line, 0, 4, '';
        if ($w) { push @{$levels[-1]}, $w } else { push @levels, [] }
    }
    my @bytes = first_level(@{$levels[0]});
    push @bytes, later_level((undef, 0x20, 2, 0xFFFF)[$_], @{$levels[$_] // []}) for 1 .. ($strength < 4 ? $strength : 4) - 1;
    print map({ sprintf '%02X', $_ } @bytes), $strength == 5 ? $line : '', "\n";
}
