#!/usr/bin/env perl
# Makes the keys of a part whose records `uca key` cannot take as they are. Its arguments: the part; uca; z if records end in NUL; the value
# of --bad; the separator; the articles; the rules; the strength; the keys; and, after --, the options of `uca key` except the rules.
use strict;
use warnings;
no warnings "utf8";
my ($part, $uca, $zero, $bad, $separator, $articles, $rules, $strength) = splice @ARGV, 0, 8;
my @keys;
while (@ARGV && (my $word = shift) ne "--") {
    my %key;
    @key{qw(start blanks stop mark number)} = split / /, $word, -1;
    push @keys, \%key;
}
$separator = "\0" if $separator eq q{\0};
my $end = $zero ? "\0" : "\n";
my ($GOOD, $BAD, $DOUBTFUL, $NUMBER) = 0 .. 3;
my $largest_input = 60 << 20;

# fails WORDS: the fault of this part, which ucasort reports
sub fails { open my $file, ">", "$part.error" or exit 2; print $file @_, "\n"; close $file; exit 2 }
sub opened { my ($mode, $name) = @_; open my $file, $mode, $name or fails("$name: $!"); binmode $file; return $file }
sub close_written { close $_[0] or fails("$part: $!") }

# A text of `uca key` has no LF. A noncharacter that is not in the part replaces it, and a rule gives that the elements of LF.
my $stand_in;
sub find_stand_in {
    my $records = opened("<", $part);
    my $all = do { local $/; <$records> };
    return unless $zero && $all =~ /\n/;
    for my $code (0xFDD0 .. 0xFDEF, map { ($_ << 16 | 0xFFFE, $_ << 16 | 0xFFFF) } 0 .. 16) {
        my $bytes = chr $code;
        utf8::encode($bytes);
        next if index($all, $bytes) >= 0;
        my $own = $rules eq "" ? "" : do { local $/; my $file = opened("<", $rules); <$file> // "" };
        my $written = opened(">", "$part.rules");
        printf $written "%s\n&\\u000A=\\U%08X\n", $own, $code;
        close_written($written);
        ($stand_in, $rules) = ($bytes, "$part.rules");
        return sprintf "%06X", $code;
    }
    fails("a name has a newline, and its part all noncharacters");
}
my $stand_in_digits = find_stand_in();

# Matches an article that something follows, with what may come before it.
my $article;
if ($articles ne "") {
    my (@apart, @joined);
    utf8::decode($articles);
    for my $word (grep { length } split /[,\s]+/, $articles) {
        my $pattern = join "", map { /['\x{2019}]/ ? "['\x{2019}]" : quotemeta } split //, $word;
        if ($word =~ /[\w.]\z/) { push @apart, $pattern } else { push @joined, $pattern }
    }
    my $words = join "|", (@apart ? "(?:" . join("|", @apart) . ")[\\s\\x{A0}]+" : ()), @joined;
    $article = qr/\A([\p{Ps}\p{Pi}"']*)(?:$words)(?=\S)/i if $words ne "";
}

# The bytes of a key's fields in a record, and whether they reach its end. Fields are as in sort.
sub fields {
    my ($record, $key) = @_;
    my ($start, $stop) = @$key{qw(start stop)};
    return ($record, 1) if $start == 1 && !$stop;
    if (length $separator) {
        my @all = split /\Q$separator\E/, $record, $stop ? $stop + 1 : $start;
        my $last = $stop && $stop < @all ? $stop : @all;
        return ($start <= $last ? join($separator, @all[$start - 1 .. $last - 1]) : "", $last == @all);
    }
    my @ends = (0);
    pos($record) = 0;
    for my $wanted ($start - 1, $stop) {
        push @ends, pos $record while @ends <= $wanted && pos $record < length $record && $record =~ /\G[ \t\n]*[^ \t\n]*/gc;
    }
    my $from = $ends[$start - 1] // length $record;
    my $to = $stop ? $ends[$stop] // length $record : length $record;
    return ($from < $to ? substr($record, $from, $to - $from) : "", $to == length $record);
}

# The text of a key, and its kind.
sub text_of {
    my ($record, $key) = @_;
    my ($text, $reaches_end) = fields($record, $key);
    return ($text =~ /\A[ \t\n]*(-?[0-9]*(?:\.[0-9]*)?)/ ? $1 : "", $NUMBER) if $key->{number};
    $text =~ s/\A[ \t\n]+// if $key->{blanks};
    $text =~ s/\r\z// if $reaches_end && !$zero;
    my $kind = kind_of($text);
    if (defined $article && $kind != $BAD) {
        utf8::decode($text);
        $text =~ s/$article/$1/;
        utf8::encode($text);
    }
    return ($text, $kind);
}

# Whether the bytes are a valid text, as far as perl can tell. If perl does not know a character, or it decomposes into marks, uca decides:
# a run of 61 marks has at least fifteen characters that are marks to perl or unknown to it.
sub kind_of {
    my ($bytes) = @_;
    return $GOOD unless $bytes =~ tr/\x80-\xFF//;
    my $text = $bytes;
    return $BAD if !utf8::decode($text) || $bytes =~ /\xED[\xA0-\xBF]|\xF4[\x90-\xBF]|[\xF5-\xFF]/;
    return $GOOD if length $bytes < 30 || $text !~ /[\p{M}\p{Cn}]{15}/;
    return $text =~ /[^\p{ccc=0}]{61}/ ? $BAD : $DOUBTFUL;
}

# A text as a line for `uca key`, which removes one CR from the end.
sub line_of {
    my ($text) = @_;
    $text =~ s/\n/$stand_in/g if defined $stand_in;
    $text .= "\r" if $text =~ /\r\z/;
    return "$text\n";
}

# The first of the texts that uca refuses, and why, or nothing if it accepts all. Its built-in table is enough for this.
sub first_refused {
    my $file = opened(">", "$part.doubtful");
    print $file map { line_of($_) } @_;
    close_written($file);
    delete local $ENV{UCA_TABLE};
    open my $uca_says, "-|", "sh", "-c", q{exec "$0" compare <"$1" 2>&1 >/dev/null}, $uca, "$part.doubtful" or fails("$uca: $!");
    my $said = join "", <$uca_says>;
    return if close $uca_says;
    return ($1 - 1, $2) if $said =~ /^uca: input line ([0-9]+) (byte [0-9]+: [A-Za-z0-9]+)$/m;
    fails($said);
}

# Writes the texts for `uca key`, and notes which already have a column, as "=" and the column.
my $given = opened(">", "$part.given");
my ($inputs, $input, $size, $records) = (0, undef, 0, 0);
sub write_texts {
    my ($texts, $kinds) = @_;
    my @doubtful = grep { $kinds->[$_] == $DOUBTFUL } 0 .. $#$texts;
    while (@doubtful) {
        my ($at) = first_refused(@$texts[@doubtful]);
        last unless defined $at;
        $kinds->[$doubtful[$at]] = $BAD;
        splice @doubtful, 0, $at + 1;
    }
    for my $at (0 .. $#$texts) {
        my ($text, $kind) = ($texts->[$at], $kinds->[$at]);
        if ($kind == $NUMBER) { print $given "=$text\n"; next }
        if ($kind == $BAD) {
            if ($bad eq "refuse") {
                my (undef, $why) = first_refused($text);
                fails("uca: input line ", $records + 1 + int($at / @keys), " ", $why // "is no text", @keys > 1 ? " in key " . (1 + $at % @keys) : "");
            }
            print $given "=$keys[$at % @keys]{mark}", uc unpack("H*", $text), "\n";
            next;
        }
        my $line = line_of($text);
        if (!$inputs || $size + length $line > $largest_input) {
            close_written($input) if $inputs;
            $input = opened(">", "$part.texts." . $inputs++);
            $size = 0;
        }
        $size += length $line;
        print $input $line;
        print $given "\n";
    }
    $records += @$texts / @keys;
    @$texts = @$kinds = ();
}
my (@texts, @kinds);
{
    local $/ = $end;
    my $file = opened("<", $part);
    while (my $record = <$file>) {
        chomp $record;
        for my $key (@keys) {
            my ($text, $kind) = text_of($record, $key);
            push @texts, $text;
            push @kinds, $kind;
        }
        write_texts(\@texts, \@kinds) if @texts > 4096;
    }
    write_texts(\@texts, \@kinds);
}
close_written($_) for $given, $inputs ? $input : ();

# Puts the columns beside the records.
my ($next_input, $uca_key) = (0);
sub next_key {
    while (1) {
        if (defined $uca_key) {
            my $key = <$uca_key>;
            return $key if defined $key;
            close $uca_key or exit 2; # uca said why
        }
        fails("uca made too few keys") if $next_input == $inputs;
        my @options = (@ARGV, $rules eq "" ? () : ("--rules", $rules));
        open $uca_key, "-|", "sh", "-c", q{input=$1; shift; exec "$0" key "$@" <"$input"}, $uca, "$part.texts." . $next_input++, @options
            or fails("$uca: $!");
    }
}
sub with_line_feeds {
    my ($key) = @_;
    my ($at, $levels) = (0, 0);
    for (; $levels < 4; $at += 4) { $levels++ if substr($key, $at, 4) eq "0000" }
    for (; $at < length $key; $at += 6) { substr($key, $at, 6) = "00000A" if substr($key, $at, 6) eq $stand_in_digits }
    return $key;
}
my $columns = opened("<", "$part.given");
my $file = opened("<", $part);
my $keyed = opened(">", "$part.keyed");
while (1) {
    my $record = do { local $/ = $end; <$file> };
    last unless defined $record;
    for my $key (@keys) {
        my $column = <$columns>;
        chomp $column;
        if ($column eq "") {
            $column = next_key();
            $column =~ tr/ \n//d;
            $column = with_line_feeds($column) if defined $stand_in && $strength eq "identical";
            $column = "-" if $column eq "";
        } else {
            substr($column, 0, 1) = "";
        }
        print $keyed $column, "\t";
    }
    print $keyed $record;
    print $keyed $end unless substr($record, -1) eq $end;
}
close_written($keyed);
if (defined $uca_key) { 1 while <$uca_key>; close $uca_key or exit 2 }
