#!/usr/bin/perl
# Answers outside_parser.py what Marpa, a general parser, says of lists of tokens. It is asked in groups of lines:
#
#     grammar T N             tokens are 1 to T, nonterminals 32 to 31 + N, and 32 is the start symbol
#     rule LEFT SYMBOL..      for each rule, in the order of their numbers
#     list TOKEN..            for each list
#     end
#
# For each list it answers a line, once the group has ended:
#
#     parse METRIC RULE..     the rules of a parse, each before those below it, from the left; METRIC is 1 where there
#                             is one parse, and 2 where there are more. -A stands for the rules that make nothing of
#                             the nonterminal A: Marpa does not tell them
#     place N                 from 1: no sentence begins with the tokens up to it, but some with those before it; one
#                             behind the list where only the end is impossible
#     refused NAME            Marpa does not take the grammar
use strict;
use warnings;
use Marpa::R2;

# Leo's short cut through right recursion keeps long lists linear. Marpa 2.086 breaks off by a segmentation fault where
# a symbol that derives only nothing stands at the end of such a rule, so shorter lists are read without it.
my $LONG = 2_000;

my @error_names = Marpa::R2::Thin::error_names();
my %impossible = map { $_ => 1 } qw(
    MARPA_ERR_UNEXPECTED_TOKEN_ID MARPA_ERR_INACCESSIBLE_TOKEN MARPA_ERR_PARSE_EXHAUSTED
    MARPA_ERR_RECCE_NOT_ACCEPTING_INPUT
);

# The grammar with the numbers that Marpa gives its symbols, and ours of those; or no grammar and the name of an error.
sub grammar_of {
    my ($tokens, $nonterminals, @rules) = @_;
    my $marpa = Marpa::R2::Thin::G->new({ if => 1 });
    $marpa->force_valued();
    $marpa->throw_set(0);
    my (%marpas, %ours);
    for my $symbol (1 .. $tokens, 32 .. 31 + $nonterminals) {
        $marpas{$symbol} = $marpa->symbol_new();
        $ours{ $marpas{$symbol} } = $symbol;
        $marpa->symbol_is_terminal_set($marpas{$symbol}, $symbol <= 20 ? 1 : 0);
    }
    for (@rules) {
        my ($left, @right) = map { $marpas{$_} } @$_;
        return { refused => error_of($marpa) } if $marpa->rule_new($left, \@right) < 0;
    }
    $marpa->start_symbol_set($marpas{32});
    return { refused => error_of($marpa) } if ($marpa->precompute() // -1) < 0;
    return { marpa => $marpa, marpas => \%marpas, ours => \%ours };
}

sub error_of {
    my ($marpa) = @_;
    my ($code) = $marpa->error();
    return $error_names[$code];
}

# How many tokens are read before the first impossible one.
sub read_tokens {
    my ($grammar, $reader, $list) = @_;
    my $count = 0;
    for my $token (@$list) {
        my $symbol = $grammar->{marpas}{$token};
        last if $token > 20 || !defined $symbol;
        my $code = $reader->alternative($symbol, 1, 1);
        if ($code != 0) {
            die "$error_names[$code]\n" if !$impossible{ $error_names[$code] };
            last;
        }
        die error_of($grammar->{marpa}) . "\n" if ($reader->earleme_complete() // -1) < 0;
        $count++;
    }
    return $count;
}

# The tree of a parse: a node is a rule with the nodes below it.
sub tree_of {
    my ($grammar, $values) = @_;
    my @stack;
    while (my ($type, $what, $first, $last) = $values->step()) {
        if ($type eq 'MARPA_STEP_RULE') {
            $stack[$first] = [ $what, grep { ref } @stack[ $first .. $last ] ];
        } elsif ($type eq 'MARPA_STEP_TOKEN') {
            $stack[$last] = 0;
        } elsif ($type eq 'MARPA_STEP_NULLING_SYMBOL') {
            $stack[$first] = [ -$grammar->{ours}{$what} ];
        } else {
            die "$type\n";
        }
    }
    return $stack[0];
}

# The rules of a tree from the left. A node goes before its children are looked at, so that no deep tree is freed at
# once.
sub rules_of {
    my @todo = @_;
    my @rules;
    while (@todo) {
        my ($rule, @children) = @{ pop @todo };
        push @rules, $rule;
        push @todo, reverse @children;
    }
    return @rules;
}

sub answer {
    my ($grammar, $list) = @_;
    return "refused $grammar->{refused}" if $grammar->{refused};
    my $reader = Marpa::R2::Thin::R->new($grammar->{marpa});
    $reader->_marpa_r_is_use_leo_set(@$list > $LONG ? 1 : 0);
    $reader->start_input();
    my $count = read_tokens($grammar, $reader, $list);
    return 'place ' . ($count + 1) if $count < @$list;
    my $bocage = Marpa::R2::Thin::B->new($reader, scalar @$list);
    return 'place ' . (@$list + 1) if !defined $bocage;
    return 'parse 1 -32' if $bocage->is_null();
    my $order  = Marpa::R2::Thin::O->new($bocage);
    my $metric = $order->ambiguity_metric();
    my $tree   = Marpa::R2::Thin::T->new($order);
    $tree->next();
    return join ' ', 'parse', $metric, rules_of(tree_of($grammar, Marpa::R2::Thin::V->new($tree)));
}

$| = 1;
my ($head, @rules, @lists);
while (<STDIN>) {
    my ($word, @numbers) = split;
    if    ($word eq 'grammar') { $head = \@numbers }
    elsif ($word eq 'rule')    { push @rules, \@numbers }
    elsif ($word eq 'list')    { push @lists, \@numbers }
    elsif ($word eq 'end') {
        my $grammar = grammar_of(@$head, @rules);
        print join '', map { answer($grammar, $_) . "\n" } @lists;
        @rules = @lists = ();
    }
}
