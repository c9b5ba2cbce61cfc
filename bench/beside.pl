#!/usr/bin/env perl
# Runs two builds of the program on random tables, rules and texts, and reports each call whose output, messages or status
# differ: beside.pl OLD NEW COUNT [SEED]. The tables have keys with marks at the front and inside, prefixes that are not keys, the
# same mark twice, zero weights in all patterns, and variable elements.
use strict;
use warnings;
use File::Temp qw(tempdir);

my ($old, $new, $count, $seed) = @ARGV;
die "usage: beside.pl OLD NEW COUNT [SEED]\n" unless defined $count;
srand($seed // 20_261_123);
my $work = tempdir(CLEANUP => 1);

my @starters = (0x61 .. 0x68, 0x7A, 0xE6, 0x3B1, 0x915, 0x9C7, 0x9BE, 0xCC6, 0xCC2, 0xCD5, 0x1100, 0x1161, 0x11A8, 0x4E00, 0x20000, 0x1D157, 0x378, 0x2D, 0x20);
my @marks = (0x300, 0x301, 0x301, 0x308, 0x323, 0x327, 0x334, 0x345, 0xF71, 0xF72, 0x3099, 0x1D165);
my @composed = (0xE9, 0xE0, 0x1EA1, 0x1EBF, 0x344, 0xF73, 0xF75, 0xCCA, 0xCCB, 0x9CB, 0xAC00, 0xAC01, 0x1D15E, 0x1F82, 0x2F800, 0x212B);

sub among { return $_[rand @_] }
sub point { return rand() < 0.6 ? among(@starters) : rand() < 0.7 ? among(@marks) : among(@composed) }
sub points { my ($most) = @_; return map { point() } 0 .. int rand $most }
sub text_of { my $text = join '', map { chr } @_; utf8::encode($text); return $text }

# a weight: often zero, sometimes at an end of its range
sub weight { my ($base, $range) = @_; return rand() < 0.25 ? 0 : rand() < 0.02 ? among(1, 0xFFFF, 0x7FFF, 0x8000) : $base + int rand $range }
sub element {
    return sprintf '[%s%04X.%04X.%04X]', rand() < 0.15 ? '*' : '.', weight(0x1000, 12), weight(0x20, 4), weight(2, 4);
}

sub table {
    my %entries;
    for (1 .. 4 + rand 40) {
        my @key = rand() < 0.5 ? (point()) : points(4);
        $entries{join ' ', map { sprintf '%04X', $_ } @key} = join '', map { element() } 0 .. int(rand() ** 3 * 4);
    }
    my $text = "\@version 1.2\n";
    $text .= "\@implicitweights 4E00..4E0F; FB10\n" if rand() < 0.2;
    $text .= "\@implicitweights 20000..20001; FB12\n" if rand() < 0.2;
    $text .= "$_ ; $entries{$_}\n" for sort { rand() <=> 0.5 } sort keys %entries;
    return $text;
}

sub rules {
    my $text = '';
    for (0 .. rand 3) {
        $text .= '&' . text_of(map { among(@starters[0 .. 12], @composed) } 0 .. rand 2);
        for (0 .. rand 4) {
            $text .= among('<', '<<', '<<<', '=', rand() < 0.05 ? '<*' : '<') . text_of(among(@starters[0 .. 17]), rand() < 0.5 ? points(2) : ());
            $text .= '/' . text_of(among(@starters[0 .. 8])) if rand() < 0.1;
        }
        $text .= "\n";
    }
    return $text;
}

sub lines {
    my @lines = map { text_of(points(8)) } 1 .. 30;
    push @lines, map { my $line = among(@lines); $line . text_of(points(2)) } 1 .. 30;
    return join '', map { "$_\n" } @lines;
}

sub test_lines {
    return join '', map { join(' ', map { sprintf '%04X', $_ } points(4)) . ";# x\n" } 1 .. 30;
}

sub written { my ($name, $bytes) = @_; open my $file, '>:raw', "$work/$name" or die; print $file $bytes; close $file; return "$work/$name" }
sub answer { my ($program, @words) = @_; my $out = qx{$program @words 2>&1}; return "$? $out" }

my ($calls, $differ) = (0, 0);
for my $number (1 .. $count) {
    my $table = written("table.$number", table());
    my $rules = written("rules.$number", rules());
    my $lines = written("lines.$number", lines());
    my $tests = written("tests.$number", test_lines());
    my $settings = sub { '--strength ' . among(qw(primary secondary tertiary quaternary identical)) . ' --variable ' . among(qw(non-ignorable blanked shifted)) };
    my @words = map { my $tailored = rand() < 0.6 ? "--rules $rules" : ''; "$_ --table $table $tailored" }
        'elements', 'key ' . $settings->(), 'key ' . $settings->(), 'compare ' . $settings->(), 'compare ' . $settings->(), 'order ' . $settings->(), 'lint', 'table';
    my @calls = ((map { "$_ <$lines" } @words), 'check ' . $settings->() . " --table $table <$tests");
    for my $call (@calls) {
        $calls += 1;
        next if answer($old, $call) eq answer($new, $call);
        $differ += 1;
        print "differs: $call\n";
        system 'cp', $table, $rules, $lines, $tests, '.' if $differ == 1;
    }
    unlink $table, $rules, $lines, $tests;
}
print "$calls calls on $count tables, $differ that differ\n";
exit($differ ? 1 : 0);
