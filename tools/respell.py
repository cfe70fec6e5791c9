#!/usr/bin/env python3
"""Respells this repository's own definitions and lemmas as today's Rattle spells names: words in snake case.

Run once at the top of a checkout, after the kit's port.py; a second run would turn names that are right. It renames in crates/, whole names only, and says how many.
Functions of src/, exported C names, strings, inputs and outputs keep their names. A lemma that would bear the name of
a definition gets `_lem` behind it.
"""

import pathlib
import re

# old=new
TABLE = """
    Unit-of=Unit_of admitted-in-rank=admitted_in_rank after-says=after_says afterPoint=after_point aheadFor=ahead_for all-four=all_four
    all-level=all_level all-places=all_places all-worse=all_worse allGraphic=all_graphic answerTold=answer_told answered-err=answered_err
    answeredFound=answered_found appended-fits=appended_fits appendedTo=appended_to are-cells=are_cells are-getD=are_get_or arrival-all=arrival_all
    arrival-shared=arrival_shared arrival-whole=arrival_whole arrival-within=arrival_within askRefusal=ask_refusal badWord=bad_word
    bareNumbers=bare_numbers before-digits=before_digits before-graphic=before_graphic beforePoint=before_point beforeRest=before_rest
    begins-frame=begins_frame behind-said=behind_said behindWord=behind_word best-bid=best_bid best-offer=best_offer bestOf=best_of
    better-through=better_through betterBid=better_bid betterOffer=better_offer bidPlace=bid_place bidPrice=bid_price bidRefusal=bid_refusal
    bidRoom=bid_room bids-tidy=bids_tidy bidsOf=bids_of blankPairs=blank_pairs blankPairs-push=blank_pairs-push body-push=body_push
    both-tidy=both_tidy by-type=by_type byte-pushed=byte_pushed bytes-end=bytes_end bytes-more=bytes_more bytesIn=bytes_in capitalDigit=capital_digit
    capitalPair=capital_pair cells-again=cells_again cells-from=cells_from cells-front=cells_front checked-moves=checked_moves
    chosen-frame=chosen_frame clearRefusal=clear_refusal cleared-moves=cleared_moves cleared-tidy=cleared_tidy complaintOf=complaint_of
    cond-moves=cond_moves conditionIn=condition_in conditionOf=condition_of conditionText=condition_text countIn=count_in counted-lies=counted_lies
    cut-bad=cut_bad cut-end=cut_end cut-message=cut_message cutFrom=cut_from decimals-none=decimals_none decimals-some=decimals_some
    decimalsOf=decimals_of digit-back=digit_back digit-plain=digit_plain digit-unblank=digit_unblank dollars-full=dollars_full
    dollars-large=dollars_large dollars-no-decimals=dollars_no_decimals dollars-no-whole=dollars_no_whole dollars-plain=dollars_plain
    dollarsOf=dollars_of eight-long=eight_long emptyFrame=empty_frame encoded-size=encoded_size end-silent=end_silent entered-in-rank=entered_in_rank
    entered-last=entered_last entered-splits=entered_splits entry-from=entry_from_lem entryFrom=entry_from entryIn=entry_in every-place=every_place
    everyType=every_type exampleMapping=example_mapping exampleSummary=example_summary exampleSymbol=example_symbol exampleTime=example_time
    exampleUpdate=example_update extends-frame=extends_frame fault-line=fault_line_lem fault-stays=fault_stays faultAt=fault_at faultLine=fault_line
    fieldIn=field_in fieldsIn=fields_in filled-in-rank=filled_in_rank filledFrom=filled_from filledLevel=filled_level fills-in-rank=fills_in_rank
    fills-none=fills_none fills-suc=fills_suc firstLevel=first_level firsts-are-best=firsts_are_best fit-board=fit_board fit-side=fit_side
    fitQuotes=fit_quotes flatRefusal=flat_refusal flaw-moves=flaw_moves flawMoved=flaw_moved floor-le=floor_le floors-high=floors_high
    floors-low=floors_low followed-moves=followed_moves found-on=found_on frame-for=frame_for frame-length=frame_length frame-push=frame_push
    frameIn=frame_in frameSays=frame_says front-is=front_is given-high=given_high given-low=given_low graphic-more=graphic_more
    grown-frame=grown_frame grown-from=grown_from grown-own=grown_own grown-read=grown_read grown-tells=grown_tells hasPoint=has_point
    hasRoom=has_room hexBytes=hex_bytes hexDigit=hex_digit hexDigitOf=hex_digit_of hexPair=hex_pair hexText=hex_text hexText-push=hex_text-push
    ifLevel=if_level inItsPlace=in_its_place inRank=in_rank inked-pairs=inked_pairs is-price=is_price_lem isBlank=is_blank isCharacter=is_character
    isDecimals=is_decimals isDollars=is_dollars isExchange=is_exchange isHexByte=is_hex_byte isHexDigit=is_hex_digit isHexPairs=is_hex_pairs
    isInk=is_ink isNumeral=is_numeral isPrice=is_price isSymbol=is_symbol keeps-if=keeps_if keeps-more=keeps_more kindFor=kind_for
    last-split=last_split later-part=later_part layerNumber=layer_number layerOf=layer_of layerText=layer_text lays-behind=lays_behind
    lays-first=lays_first lays-head=lays_head length-not-worse=length_not_worse lengthIn=length_in letterFit=letter_fit letterIn=letter_in
    letterOf=letter_of letterText=letter_text level-back=level_back level-end=level_end level-from=level_from level-none=level_none level-on=level_on
    level-parts=level_parts level-start=level_start level-stop=level_stop level-there=level_there level-whole=level_whole levelAt=level_at
    levelWith=level_with looked-up-capped=looked_up_capped lookedUp=looked_up ltb-suc=ltb_suc message-long=message_long messageAt=message_at
    messageLine=message_line messages-long=messages_long moved-says=moved_says movedAfter=moved_after movedBy=moved_by no-entry=no_entry
    no-sent=no_sent none-level=none_level not-blank=not_blank not-point=not_point not-symbol=not_symbol notWorse=not_worse
    nothing-there=nothing_there noticeOf=notice_of noticeTold=notice_told numberAfter=number_after numberAfter-ge=number_after_ge
    numeral-decimal=numeral_decimal numeral-from=numeral_from numeral-not=numeral_not offerPlace=offer_place offerPrice=offer_price
    offerRefusal=offer_refusal offerRoom=offer_room offers-tidy=offers_tidy offersOf=offers_of onFirst=on_first onOk=on_ok one-high=one_high
    one-within=one_within onward-for=onward_for onward-says=onward_says open-frame=open_frame opened-says=opened_says own-here=own_here
    padded-none=padded_none padded-some=padded_some paddedOf=padded_of pair-back=pair_back pair-first=pair_first pair-from=pair_from
    pairs-back=pairs_back pairs-more=pairs_more part-here=part_here pass-entered=pass_entered pass-filled=pass_filled pass-filler=pass_filler
    pass-fills=pass_fills pass-removed=pass_removed pass-set=pass_set pass-weaker=pass_weaker pass-without=pass_without phraseOf=phrase_of
    pieces-hexText=pieces_hex_text piecesBehind=pieces_behind place-within=place_within placesAfter=places_after plain-hexText=plain_hex_text
    postRefusal=post_refusal posted-moves=posted_moves posted-price=posted_price price-back=price_back price-entered=price_entered
    price-without=price_without priceAt=price_at priceIn=price_in priceOf=price_of priceText=price_text pro-rata-shared=pro_rata_shared
    proRata=pro_rata published-tells=published_tells put-more=put_more quoted-less=quoted_less read-anywhere=read_anywhere read-front=read_front
    readMoved=read_moved readOn-ends=read_on_ends readOn-goes=read_on_goes readOn-none=read_on_none readOn-some=read_on_some
    readOn-stops=read_on_stops readerFor=reader_for reads-back=reads_back reasonText=reason_text removed-in-rank=removed_in_rank
    removed-is=removed_is removed-or-not=removed_or_not removed-past=removed_past replaced-in-rank=replaced_in_rank resumed-for=resumed_for
    rounded-whole=rounded_whole rounded-within=rounded_within said-lies=said_lies same-is=same_is same-places=same_places same-type=same_type
    says-count=says_count says-length=says_length sendIn=send_in sentAfter=sent_after sentSummary=sent_summary sentUpdate=sent_update
    seriesText=series_text set-in-rank=set_in_rank setRefusal=set_refusal sideFit=side_fit sizesFit=sizes_fit skip-done=skip_done
    skip-empty=skip_empty skip-more=skip_more span-end=span_end span-here=span_here standOf=stand_of startRefusal=start_refusal starts-all=starts_all
    stepped-over=stepped_over summary-line=summary_line_lem summaryBytes=summary_bytes summaryIn=summary_in summaryLine=summary_line
    summaryNumbers=summary_numbers summaryOf=summary_of symbol-back=symbol_back symbolFit=symbol_fit symbolIn=symbol_in tableWidth=table_width
    tail-half=tail_half tail-moves=tail_moves take-least=take_least taken-err=taken_err taken-over=taken_over tells-understood=tells_understood
    tenThousandths=ten_thousandths tenthsRefusal=tenths_refusal tests-move=tests_move text-keeps=text_keeps text-more=text_more tidy-from=tidy_from
    tidy-parts=tidy_parts told-goes=told_goes told-unknown=told_unknown tooWide=too_wide trim-blank=trim_blank trim-blanks=trim_blanks
    trim-done=trim_done trim-empty=trim_empty trim-more=trim_more trim-none=trim_none trim-padded=trim_padded trimmedOf=trimmed_of
    turned-in=turned_in turned-out=turned_out twoDigits=two_digits unbroken-lies=unbroken_lies uncommentedOf=uncommented_of
    understood-moves=understood_moves understood-tells=understood_tells unknown-line=unknown_line_lem unknownLine=unknown_line
    unlevel-there=unlevel_there updateBytes=update_bytes updateIn=update_in updateLine=update_line updateNumbers=update_numbers updateOf=update_of
    verbOf=verb_of whole-message=whole_message whole-or-not=whole_or_not wholeOf-some=whole_of_some with-cents=with_cents wordGiven=word_given
    wordList=word_list wordTaken=word_taken wordText=word_text words-behind=words_behind words-hexText=words_hex_text words-lead=words_lead
    worse-through=worse_through written-more=written_more written-own=written_own written-own-all=written_own_all written-tells=written_tells
    written-trip=written_trip writtenAll=written_all
"""

# Lemmas whose name fell together with a definition's, each in the files where it is the lemma that is meant.
LEMMAS = {
    "has_room": ("has_room_lem", "crates/writer/proofs/Holding.antt"),
    "update_line": ("update_line_lem", "crates/board/proofs/"),
    "written_all": ("written_all_lem", "crates/sharing/proofs/"),
}

# A name begins and ends where none of the characters of antt's names stands beside it.
BEFORE, AFTER = r"(?<![\w'\-])", r"(?![\w'\-])"
STRING = re.compile(r'"(?:[^"\\]|\\.)*"')


def respelled(text, table):
    """The text with the names of the table turned, but for strings, and how many were turned."""
    names = re.compile(BEFORE + "(?:" + "|".join(sorted(map(re.escape, table), key=len, reverse=True)) + ")" + AFTER)
    count, parts, at = 0, [], 0

    def turned(piece):
        nonlocal count
        piece, n = names.subn(lambda m: table[m[0]], piece)
        count += n
        return piece

    for string in STRING.finditer(text):
        parts += [turned(text[at : string.start()]), string[0]]
        at = string.end()
    return "".join(parts) + turned(text[at:]), count


def main():
    table = dict(pair.split("=") for pair in TABLE.split())
    total = 0
    for path in sorted(pathlib.Path("crates").glob("*/*/**/*")):
        if path.suffix not in (".antt", ".rt") or "out" in path.parts:
            continue
        old = path.read_text(encoding="utf-8")
        here = {name: new for name, (new, place) in LEMMAS.items() if str(path).startswith(place)}
        new, lemmas = respelled(old, here) if here else (old, 0)
        new, count = respelled(new, {k: v for k, v in table.items() if path.suffix == ".antt" or "-" not in k})
        if new != old:
            path.write_text(new, encoding="utf-8")
        total += count + lemmas
    print(f"respell: {total} names turned")


if __name__ == "__main__":
    main()
