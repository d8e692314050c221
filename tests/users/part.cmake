# A project of which the library is a part: DIST names its folder, and SOURCE the program.
cmake_minimum_required(VERSION 3.11)
project(user C)
add_subdirectory("${DIST}" library)
add_executable(user "${SOURCE}")
target_link_libraries(user chinese_number::chinese_number)
install(TARGETS user DESTINATION bin)
