/** Chinese numerals, amounts of money, dates, quantities and phrases. */
module chinesenumber {
    exports chinesenumber;
}
