#!/usr/bin/env perl
# Reports what is wrong with rules. Its arguments: the file; what uca says about it; uca; the table.
use strict;
use warnings;
no warnings "utf8";
my ($name, $said, $uca, $table) = @ARGV;
my $can_decompose = eval { require Unicode::Normalize; 1 };
binmode STDOUT, ":utf8";
my $shown_name = $name;
utf8::decode($shown_name);
open my $file, "<:raw", $name or die "$name: $!\n";
my $bytes = do { local $/; <$file> } // "";
my $found = 0;

# reports AT WORDS: a finding at a byte: line and column from 1, the line, and a mark below the place
sub reports {
    my ($at, $words) = @_;
    $found = 1;
    my $before = substr($bytes, 0, $at);
    my $line_number = 1 + $before =~ tr/\n//;
    my $begins = 1 + rindex($before, "\n");
    my $ends = index($bytes, "\n", $at);
    my $front = substr($bytes, $begins, $at - $begins);
    my $line = substr($bytes, $begins, ($ends < 0 ? length $bytes : $ends) - $begins);
    # Invalid text is shown byte by byte.
    for ($front, $line) { utf8::decode($_); s/\r\z//; s/([\0-\x08\x0B-\x1F\x7F])/sprintf "\\x%02X", ord $1/ge }
    my $column = 1 + length $front;
    (my $indent = $front) =~ s/[\p{M}\p{Cf}]//g;
    $indent =~ s/([^\t])/$1 =~ m{[\p{ea=W}\p{ea=F}]} ? "  " : " "/ge;
    print "$shown_name:$line_number:$column: $words\n    $line\n    $indent^\n";
}

# The byte at which a character begins.
my $text = $bytes;
my $is_text = utf8::decode($text);
sub byte_of { my $front = substr($text, 0, $_[0]); utf8::encode($front); return length $front }

my @left_out = (
    ["<<<<", "a fourth level is left out; = makes texts equal, and << or <<< tells them apart"],
    ["[<=]", "a list of items after an operator with * is left out; write each item with its operator, as <a<b<c"],
    ['\[before', "[before ..] is left out; reset on what comes before, or give the other letter a place after"],
    ['\[(?:first|last|top|variable)', "a place that has a name is left out; reset on a character"],
    ['\[reorder', "the order of scripts is left out; texts of one script are in their order"],
    ['\[caseFirst', "capitals first is left out; it matters only if nothing else differs"],
    ['\[backwards', "accents from the end are left out"],
    ['\[alternate', "this is not a rule here; --variable says how punctuation is weighted"],
    ['\[strength', "this is not a rule here; --strength says which levels are compared"],
    ['\[import', "[import ..] is left out; copy the rules of the other language"],
    ['\[suppressContractions', "[suppressContractions ..] is left out; = gives a contraction the elements of its parts"],
    ['\[numericOrdering', "numbers by their value are left out"],
    ['\[', "settings in brackets are left out; as a character of a string, [ needs quotes or a backslash"],
    ['\|', "a letter that depends on the letter before it (a prefix) is left out"],
    [';', "; is an older sign for << and is left out; as a character of a string it needs quotes or a backslash"],
    [',', ", is an older sign for <<< and is left out; as a character of a string it needs quotes or a backslash"],
    ['@', "@ is an older sign for accents from the end and is left out; as a character it needs quotes or a backslash"],
);
my %sentences = (
    TooManyRelations => "there are more than 20,000 relations",
    EmptyString => "after this operator there is no string",
    LongRun => "this string has more than 60 combining marks in a row",
    KeyTooLong => "this string has more than 32 code points in NFD",
    NotUtf8 => "these bytes are not UTF-8",
    TooLarge => "the rules have more than 1,048,576 bytes",
    Read => "the rules could not be read",
    SmallWeight => "what comes before this item has no weight at the level of its operator, so nothing can come after it there",
    HighReset => "what comes before this item has an implicit weight, as ideographs have; nothing can come after it at the first level",
    "Full 1" => "there is no gap for another weight at the first level",
    "Full 2" => "there is no gap for another weight at the second level",
    "Full 3" => "there is no gap for another weight at the third level",
    TooManyElements => "this item would get more than 64 collation elements",
);

sub sentence_of {
    my ($cause, $at) = @_;
    my $rest = substr($bytes, $at);
    if ($cause eq "LeftOut") {
        for my $row (@left_out) { return "$row->[1] (UTS #35, part 5)" if $rest =~ /\A$row->[0]/ }
    }
    if ($cause eq "Syntax") {
        my $before = substr($bytes, 0, $at);
        $before =~ s/#[^\n]*//g;
        return "this comes before the first reset; rules begin with & and a string" if $before !~ /&/;
        return "this quote is not ended" if $rest =~ /\A'/;
        return "this is not an escape; an escape is \\uhhhh, \\Uhhhhhhhh, or a backslash before any other character" if $rest =~ /\A\\/;
        return "there is no item before this /" if $rest =~ m{\A/};
        return "$1 is not a character of a string; it needs quotes or a backslash" if $rest =~ /\A([!-~])/;
    }
    return $sentences{$cause} // $cause;
}

# The relations of rules without a fault: for each, the place of its operator, and its item.
sub relations {
    my (@all, $string);
    pos($text) = 0;
    while (pos $text < length $text) {
        my $at = pos $text;
        if ($text =~ /\G(?:[\t-\r \x{85}\x{200E}\x{200F}\x{2028}\x{2029}]|#[^\n\f\r\x{85}\x{2028}\x{2029}]*)+/gc) {
        } elsif ($text =~ m{\G(&|<{1,3}|=|/)}gc) {
            $string = \my $item;
            $item = "";
            push @all, { at => $at, item => $string } if $1 =~ /[<=]/;
        } elsif ($text =~ /\G''/gc) {
            $$string .= "'";
        } elsif ($text =~ /\G'((?:[^']|'')*)'/gc) {
            (my $quoted = $1) =~ s/''/'/g;
            $$string .= $quoted;
        } elsif ($text =~ /\G\\(?:u([0-9A-Fa-f]{4})|U([0-9A-Fa-f]{8}))/gc) {
            $$string .= chr hex($1 // $2);
        } elsif ($text =~ /\G\\?(.)/gcs) {
            $$string .= $1;
        }
    }
    for (@all) { $_->{item} = $can_decompose ? Unicode::Normalize::NFD(${$_->{item}}) : ${$_->{item}} }
    return @all;
}

my $cause = "";
my @all;
if ($said =~ /^uca: rules byte ([0-9]+): (.*)$/m) {
    $cause = $2;
    reports($1 > length $bytes ? length $bytes : $1, sentence_of($2, $1) . " ($2)");
} else {
    @all = relations();
    if ($said =~ /^uca: rules relation ([0-9]+): (.*)$/m) {
        $cause = $2;
        reports(byte_of($all[$1 - 1]{at}), sentence_of($2, 0) . " ($2)");
    }
}

# Items that are tailored twice.
my %place;
for my $relation (@all) {
    my ($at, $item) = @$relation{qw(at item)};
    if (defined $place{$item}) {
        my $before = substr($text, 0, $place{$item});
        my ($line, $column) = (1 + $before =~ tr/\n//, length($before) - rindex($before, "\n"));
        reports(byte_of($at), "$item is tailored twice; this place replaces the one at $line:$column");
    }
    $place{$item} = $at;
}

# The items that break condition WF5: what comes before the last mark is not a key.
my %fronts;
for my $item ($cause eq "" ? keys %place : ()) {
    push @{ $fronts{ join " ", map { sprintf "%04X", ord } split //, substr($item, 0, -1) } }, $item
        if length $item > 2 && $item =~ /[^\p{ccc=0}]\z/;
}
if (%fronts) {
    open my $entries, "-|", $uca, "table", "--table", $table, "--rules", $name or die "$uca: $!\n";
    while (<$entries>) { /^([0-9A-F ]+) ;/ and delete $fronts{$1} }
    close $entries;
    for my $item (sort { $place{$a} <=> $place{$b} } map { @$_ } values %fronts) {
        reports(byte_of($place{$item}), "$item ends in a combining mark, and what comes before that mark is neither an item nor a key of the table (WF5); "
            . "with another mark between them it is not found");
    }
}
exit $found;
