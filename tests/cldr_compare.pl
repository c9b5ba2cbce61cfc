#!/usr/bin/env perl
# Compares how two collators order the same lines: cldr_compare.pl LINES OURS THEIRS, files of lines and of their keys as digits.
# Writes how many neighbours there are in the order of our keys, how many of these compare differently by theirs, and the first few.
use strict;
use warnings;
no warnings 'nonchar';
my ($lines, $ours, $theirs) = map { open my $file, '<:utf8', $_ or die "$_: $!"; chomp(my @all = <$file>); \@all } @ARGV;
binmode STDOUT, ':utf8';
@$lines == @$ours && @$ours == @$theirs or die "keys are missing\n";
my @order = sort { $ours->[$a] cmp $ours->[$b] || $theirs->[$a] cmp $theirs->[$b] } 0 .. $#$lines;
my ($differ, @shown) = 0;
for my $i (1 .. $#order) {
    my ($x, $y) = @order[$i - 1, $i];
    next if ($ours->[$x] cmp $ours->[$y]) == ($theirs->[$x] cmp $theirs->[$y]);
    $differ++;
    push @shown, sprintf '%s %s %s', $lines->[$x], ($ours->[$x] lt $ours->[$y] ? '<' : '=') . ('=', '>', '<')[$theirs->[$x] cmp $theirs->[$y]], $lines->[$y] if @shown < ($ENV{SHOWN} // 3);
}
print join(' ', $#order, $differ), @shown ? '; ' . join(', ', @shown) : '', "\n";
