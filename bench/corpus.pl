# Writes lines of one to four words from word lists in several scripts, with a fixed seed: corpus.pl FOLDER BYTES <LISTS
# A line of LISTS is `SCRIPT SHARE PACKAGE FILE ENCODING`. The shares of the words and of the bytes go to standard error.
use strict;
use warnings;
use Encode ();

my ($folder, $left) = @ARGV;
srand 20_200_310;

# kept_of FILE: about a megabyte of a list's lines, in a hundred evenly spaced runs
sub kept_of {
    my ($file) = @_;
    my $size = -s $file;
    my $kept = "";
    open my $list, "<:raw", $file or die "$file: $!";
    for my $part (0 .. 99) {
        seek $list, int($size * $part / 100), 0;
        my $room = $size < 1_000_000 ? $size / 100 : 10_000;
        my $cut = <$list>;
        while ($room > 0 and defined(my $line = <$list>)) {
            $kept .= $line;
            $room -= length $line;
        }
    }
    return $kept;
}

# words_of FILE ENCODING: the words of these lines, as UTF-8
sub words_of {
    my ($file, $encoding) = @_;
    my @words;
    for my $line (split "\n", Encode::decode($encoding, kept_of($file), Encode::FB_CROAK)) {
        next if $line =~ /^;/;
        $line =~ s{[/\t].*}{} if $file =~ /\.dic$/;
        my @fields = split " ", $line;
        @fields = @fields[0 .. 0] if $file =~ /edict$/;
        shift @fields if $file =~ /\.pyim$/;
        push @words, grep { /\p{Alphabetic}/ } @fields;
    }
    utf8::encode($_) for @words;
    return \@words;
}

my (@drawn, %share, %bytes);
while (<STDIN>) {
    my ($script, $share, undef, $file, $encoding) = split;
    next unless defined $encoding and -f "$folder/$file";
    my $words = words_of("$folder/$file", $encoding);
    push @drawn, ([$script, $words]) x $share;
    $share{$script} += $share;
}
die "no list of words" unless @drawn;

while ($left > 0) {
    my @line;
    for (0 .. int rand 4) {
        my ($script, $words) = @{ $drawn[rand @drawn] };
        push @line, $words->[rand @$words];
        $bytes{$script} += length $line[-1];
    }
    my $line = join(" ", @line) . "\n";
    print $line;
    $left -= length $line;
}
my $whole = 0;
$whole += $_ for values %bytes;
my @shares = map { sprintf "%s %.0f %% (%.0f %%)", $_, 100 * $share{$_} / @drawn, 100 * $bytes{$_} / $whole }
    sort { $share{$b} <=> $share{$a} or $a cmp $b } keys %share;
print STDERR "words (bytes) by script: ", join(", ", @shares), "\n";
